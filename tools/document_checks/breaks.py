"""Breaks the documents, the schema and the code, one place at a time, in copies, and sees that the checks tell it.

A break has the name of the check that has to tell it, a file, what is done to it, and a part of the line that tells it. None in
the place of that part says that the change is harmless, and nothing may be told.
"""
import pathlib
import tempfile
from collections import namedtuple

from . import checks

Break = namedtuple("Break", "check file old new told")
# In the place of a text to be replaced: the new text is added at the end of the file, which is made if it is not there.
END = "at the end"
# In the place of a new text: the file is taken away.
GONE = None

LONG = "one two three four five six seven eight nine ten " * 3
SHORT_DOCUMENTS = ("README.md", "CONTRIBUTING.md", "docs/PROOF.md", "docs/PROOF_CRATES.md", "docs/SCENARIOS.md", "docs/TESTED.md",
                   "docs/BENCHMARKS.md", "docs/GLOSSARY.md")
SCENARIOS = "docs/SCENARIOS.md"
SCHEMA = "scenarios/schema.json"

GENERAL = [
    Break("documents", "scenarios/README.md", END, GONE, "scenarios/README.md: is not there"),
    Break("README's size", "README.md", END, "\n" * 121, "lines, more than 120"),
    Break("README's size", "README.md", END, "\n" + "x" * 131 + "\n", "131 characters, more than 130"),
    *(Break("sentences", name, END, f"\n{LONG}eleven.\n", f"{name}:") for name in SHORT_DOCUMENTS),
    Break("sentences", "docs/TESTED.md", END, f"\n- {LONG}eleven\n- two\n", "a sentence has 31 words"),
    Break("sentences", "docs/TESTED.md", END, f"\n{LONG.strip()}. {LONG.strip()} - `a b`.\n", "a sentence has 31 words"),
    Break("sentences", "docs/TESTED.md", END, f"\n{LONG.strip()}. {LONG.strip()}!\n", None),
    Break("sentences", "docs/TESTED.md", END, f"\n- {LONG.strip()}\n- {LONG.strip()}\n", None),
    Break("sentences", "docs/TESTED.md", END, f"\n```\n{LONG * 2}\n```\n\n| a |\n|---|\n| {LONG * 2} |\n\n# {LONG * 2}\n", None),
    *(Break("rows of proofs", name, END, f"\n| a | b |\n|---|---|\n| {LONG} | `c` {LONG[:48]} eleven |\n", f"{name}:")
      for name in ("docs/PROOF.md", "docs/PROOF_CRATES.md")),
    Break("rows of proofs", "docs/PROOF.md", END, f"\n| a | b |\n|---|---|\n| {LONG} | `c d` {LONG[:48]} |\n", None),
    Break("crates", "crates.txt", END, "no_such_crate may_wait=2: hb_base\n", "no_such_crate"),
    Break("paths", "docs/DECISIONS.md", END, "\nSee `crates/no_such/src/lib.rt`.\n", "crates/no_such/src/lib.rt"),
    Break("paths", "docs/DECISIONS.md", END, "\nSee (docs/NOTHING.md).\n", "docs/NOTHING.md"),
    Break("paths", "docs/DECISIONS.md", END, "\nSee `NoSuch.antt`.\n", "NoSuch.antt"),
    Break("paths", "scenarios/README.md", END, "\n```\n./run scenarios/no_such.json\n```\n", "scenarios/no_such.json"),
    Break("paths", "docs/DECISIONS.md", END, "\nThe half `crates/{hb_app,no_such}/src`.\n", "no_such"),
    Break("paths", "docs/DECISIONS.md", END, "\nSee `crates/CRATE/specs`, `Limits.antt`, `crates/{hb_app,hb_base}/src`, and/or 1/2.\n", None),
    Break("links", "README.md", END, "\n[a](docs/no_such.md)\n", "docs/no_such.md leads nowhere"),
    Break("links", "README.md", END, "\n[a](../README.md)\n", "../README.md leads nowhere"),
    Break("links", SCENARIOS, END, "\n[a](#no-such)\n", "#no-such leads to no heading"),
    Break("links", "docs/DECISIONS.md", END, "\n[a](SCENARIOS.md#no-such)\n", "#no-such leads to no heading"),
    Break("links", "docs/DECISIONS.md", END, "\n## A `b`: d\n\n## A `b`: d\n\n[a](#a-b-d-1) [b](https://no.such)\n", None),
    Break("links", "docs/DECISIONS.md", END, "\n[a](SCENARIOS.md#keys) [b](../tools) `[c](nowhere)`\n", None),
]
DOCUMENT = [
    Break("refusals", SCENARIOS, "| 14 | `BadWord` |", "| 15 | `BadWord` |", "refusal 14 of the code is not there"),
    Break("refusals", SCENARIOS, "PLACE value=NUMBER`", "PLACE`", "refusal 7 is"),
    Break("refusals", SCENARIOS, "| `BadHex` |", "| `NoHex` |", "refusal 12 is"),
    Break("refusals", "crates/script_fault/src/write.rt", "refused 9 TooManyLiars", "refused 9 ManyLiars", "refusal 9 is"),
    Break("refusals", "crates/verdict_text/src/refusal.rt", "refused 21 ", "refused 22 ", "refusal 22 of the code is not there"),
    Break("keys", SCENARIOS, "| `hears` |", "| `heard` |", "key of liars hears of the code is not there"),
    Break("keys", SCENARIOS, "hex of 1 to 256 bytes | refused |", "hex of 1 to 256 bytes | empty |", "where tx of submit is absent"),
    Break("keys", "crates/script_fault/src/place.rt", '=> "batch"', '=> "batches"', "key of top batches of the code is not there"),
    Break("limits of keys", SCENARIOS, "| `epochs` | number | 1 to 32 |", "| `epochs` | number | 1 to 33 |", "the limits of epochs"),
    Break("limits of keys", SCENARIOS, "| `hears` | number | 0 to", "| `hears` | number | 1 to", "the limits of hears"),
    Break("limits of keys", SCENARIOS, "`old`, `new` or `torn` | refused", "`old` or `new` | refused", "the word torn"),
    Break("liars", SCENARIOS, "| `babble` | nothing", "| `babbler` | nothing", "liar babble of the code is not there"),
    Break("liars", "crates/liar_cast/src/silent.rt", 'of("silent")', 'of("still")', "liar still of the code is not there"),
    Break("votes", SCENARIOS, "| `0B` |", "| `0C` |", "vote 0B of the code is not there"),
    Break("votes", SCENARIOS, "salt, 16 bytes; ", "16 bytes; ", "the field salt of vote 09"),
    Break("votes", SCENARIOS, "| `03` | `Ready` | root, 32 bytes | to all |", "| `03` | `Ready` | root, 32 bytes | home |", "vote 03 is Ready"),
    Break("votes", "crates/hb_wire/src/vote.rt", "=> 0x12", "=> 0x13", "vote 13 of the code is not there"),
    Break("words of votes", SCENARIOS, "| `AUX epoch E", "| `AUXI epoch E", "word of a vote AUX of the code is not there"),
    Break("words of votes", SCENARIOS, "HEX` | Echo |", "HEX` | Ready |", "the word ECHO is that of Echo"),
    Break("words of votes", "crates/vote_words/src/vote.rt", '"EST epoch "', '"INPUT epoch "', "word of a vote INPUT of the code"),
    Break("statuses", SCENARIOS, "| 2 | there are words, and", "| 1 | there are words, and", "status 2 of the code is not there"),
    Break("statuses", SCENARIOS, "| `usage: hb_votes [--full]` |", "| `usage: hb_votes` |", "status 2 goes with the line `usage: hb_votes"),
    Break("statuses", "crates/votes_app/src/telling.rt", "hint(NO_MEMORY, 9, err)", "hint(NO_MEMORY, 8, err)", "status 8 of the code"),
    Break("statuses", SCENARIOS, "| 8 | `audit`", "| 1 | `audit`", "status 8 of the code is not there"),
    Break("statuses", SCENARIOS, "| `read failed` |", "| `reading failed` |", "status 6 goes with"),
    Break("statuses", "crates/run_status/src/outcome.rt", "\n        9\n", "\n        19\n", "status 19 of the code is not there"),
    Break("statuses", "crates/hb_app/src/telling.rt", "tell(READ_FAILED, 6, err)", "tell(READ_FAILED, 10, err)", "status 10 of the code"),
    Break("lines of texts", SCENARIOS, "| `illegal K` |", "| `illegal` |", "illegal NUMBER"),
    Break("lines of texts", SCENARIOS, "| `actor A full` |", "| `actor A gone` |", "actor NUMBER full"),
    Break("lines of texts", "crates/ledger_text/src/lines.rt", '"epoch "', '"era "', "era NUMBER"),
    Break("lines of texts", "crates/trace_text/src/lines.rt", '" actor "', '" lane "', "lane NUMBER to book"),
    Break("examples", SCENARIOS, '"hears": 0}', '"hears": 1}', "this scenario is no file"),
    Break("examples", SCENARIOS, "accused 3 posts 62 63", "accused 3 posts 62 64", "no file of scenarios/ begins"),
    Break("refused inputs", SCENARIOS, "| `refused 12 BadHex submit 0 tx` |", "| `refused 12 BadHex submit 1 tx` |", "12_BadHex.json is shown"),
    Break("refused inputs", SCENARIOS, "| 1,048,577 spaces |", "| 1,048,576 spaces |", "01_TooLong.spaces is shown"),
    Break("refused inputs", "scenarios/refused/12_BadHex.json", END, GONE, "refusal 12 has no input"),
    Break("refused inputs", "scenarios/refused/12_Other.json", END, "{}\n", "12_Other.json of scenarios/refused is not there"),
    Break("refused inputs", "scenarios/refused/12_BadHex.out", "submit 0", "submit 1", "12_BadHex.json is shown"),
]
SCHEMAS = [
    Break("schema and code", SCHEMA, '"maximum": 65536', '"maximum": 65537', "every has 65537"),
    Break("schema and code", SCHEMA, '["node", "tx"]', '["node"]', "the keys of submit"),
    Break("schema and code", SCHEMA, '"false_share", ', "", "name has"),
    Break("schema and code", "crates/hb_base/src/limits.rt", "MOST_LINKS: u32 = 256", "MOST_LINKS: u32 = 255", "links has 256"),
    Break("schema at its edges", SCHEMA, '"maxItems": 5', '"maxItems": 6', "it accepts"),
    Break("schema at its edges", SCHEMA, '{"nodes": {"minimum": 7}}', '{"nodes": {"minimum": 6}}', "it accepts"),
    Break("schema at its edges", SCHEMA, '{"nodes": {"const": 9}}', '{"nodes": {"const": 8}}', "it"),
    Break("schema at its edges", SCHEMA, '"^([0-9A-Fa-f]{2}){1,256}$"', '"([0-9A-Fa-f]{2}){1,256}"', "not anchored"),
    Break("schema at its edges", SCHEMA, '"maxItems": 256', '"mostItems": 256', "unknown keyword mostItems"),
    Break("schema and scenarios", SCHEMA, ', "torn"]', "]", "it refuses scenarios/torn_stops.json"),
    Break("schema and refused inputs", SCHEMA, '["fifo", "mixed"]', '["fifo", "mixed", "lifo"]', "14_BadWord.json the schema accepts"),
    Break("schema and refused inputs", SCENARIOS, "top 0 faulty` | accepts |", "top 0 faulty` | refuses |", "06_NotNumber_minus.json"),
]
ALL = GENERAL + DOCUMENT + SCHEMAS


def link_all(folder, target):
    """Makes a folder of links to all that another has."""
    folder.mkdir(exist_ok=True)
    for path in target.iterdir():
        if path.name != ".git":
            (folder / path.name).symlink_to(path)


def own(root, name):
    """Puts folders of links in the place of the links on the way to a file, so that it can be changed without its original."""
    for parent in list(reversed(pathlib.PurePosixPath(name).parents))[1:]:
        folder = root / parent
        if folder.is_symlink():
            target = folder.resolve()
            folder.unlink()
            link_all(folder, target)


def change(root, broken):
    """Makes a break in a folder of links. The answer is what hinders it."""
    path = root / broken.file
    own(root, broken.file)
    text = path.read_text(encoding="utf-8") if path.exists() else ""
    if broken.old is not END and broken.old not in text:
        return [f"self-test: {broken.file} does not have {broken.old!r}"]
    path.unlink(missing_ok=True)
    if broken.new is not GONE:
        path.write_text(text + broken.new if broken.old is END else text.replace(broken.old, broken.new), encoding="utf-8")
    return []


def restore(root, top, name):
    """Puts the link to the original in its place again."""
    (root / name).unlink(missing_ok=True)
    if (top / name).exists():
        (root / name).symlink_to(top / name)


def hinders(root, broken, before):
    """What is wrong with a break: it cannot be made, nothing tells it, or it is harmless and told all the same."""
    hindrance = change(root, broken)
    if hindrance:
        return hindrance
    told = [line for line in checks.run(broken.check, root) if line not in before]
    what = f"self-test: '{broken.check}' on {broken.file} with {(broken.new or 'nothing').strip()[:50]!r}"
    if broken.told is None:
        return [f"{what} tells {line}" for line in told]
    return [] if any(broken.told in line for line in told) else [f"{what} does not tell it, but {told}"]


def self_test(top):
    """What the checks do not tell, of all breaks. Each check has to have one."""
    broken_ones = {broken.check for broken in ALL if broken.told is not None}
    wrong = [f"self-test: nothing breaks what '{name}' checks" for name in checks.CHECKS if name not in broken_ones]
    with tempfile.TemporaryDirectory() as scratch:
        root = pathlib.Path(scratch)
        link_all(root, top)
        before = {name: set(checks.run(name, root)) for name in checks.CHECKS}
        for broken in ALL:
            wrong += hinders(root, broken, before[broken.check])
            restore(root, top, broken.file)
    return wrong
