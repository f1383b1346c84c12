"""What the code of the crates has: refusals, keys, limits, words, liars, votes, statuses and lines of texts.

All of it is read from the sources, so that a document is held to the code and not to a list that somebody copied.
"""
import pathlib
import re

# What a call puts behind its text: a hole of this name.
HOLES = {"add_place": "PLACE", "add_entry": "LIST INDEX", "add_count": "NUMBER", "add_address": "ADDRESS", "add_bytes": "HEX"}
# Where the functions that put lines are called.
USERS = (("ledger_text", "nodes"), ("ledger_text", "text"), ("observer_text", "text"), ("accuse_text", "text"))
# A piece of a line: a call that is handed the line, with the text that comes first, or a call of the line.
TEXT = r'(?:"((?:[^"\\]|\\.)*)")?'
PIECE = re.compile(rf'(\w+)\(\s*(?:&mut )?line,?\s*{TEXT}|line\.(text|number|hex)\(\s*{TEXT}([^()"]*)')


class FactError(Exception):
    """The sources have another form than is read here."""


def source(root, crate, name):
    """The text of a source file, without its comments."""
    path = pathlib.Path(root) / "crates" / crate / "src" / f"{name}.rt"
    lines = path.read_text(encoding="utf-8").split("\n")
    return "\n".join(line for line in lines if not line.lstrip().startswith("//"))


def some(found, what):
    """What was found, of which there has to be some."""
    if not found:
        raise FactError(f"no {what} found in the sources")
    return found


def function(text, name):
    """The body of a function."""
    match = re.search(rf"\n *(?:pub(?:\(crate\))? )?fn {name}\b.*?\n(?:\{{|    \{{)\n(.*?)\n(?:    )?\}}\n", text + "\n", re.S)
    return some(match, f"function {name}").group(1)


def template(body, text=""):
    """The line that code puts together: its texts, and a hole in capitals for each value. A call that the same file has, and
    that takes the line, is gone into."""
    line = ""
    for call, start, method, word, name in PIECE.findall(body):
        if call in HOLES:
            line += start + HOLES[call]
        elif call and re.search(rf"\bfn {call}\b", text):
            line += template(function(text, call), text)
        elif method == "text":
            line += word or f"<{name.strip()}>"
        elif method:
            line += "HEX" if method == "hex" else "NUMBER"
    return line.replace("\\n", "\n")


def arms(body, kind):
    """The arms of a match on an enum: the variants, and the code of each."""
    parts = re.split(rf"\b{kind}::(\w+)[^=]*?=>", body)
    return list(zip(parts[1::2], parts[2::2]))


def refusals(root):
    """The lines of the refusals, by their numbers. A text of the input stands behind the last `=`."""
    found = {}
    for crate, name, kind in (("script_fault", "write", "ScriptFault"), ("verdict_text", "refusal", "TraceFault")):
        for _, code in arms(function(source(root, crate, name), "add_words"), kind):
            line = template(code)
            if line.startswith("refused "):
                found[int(line.split()[1])] = line + "HEX" if line.endswith("=") else line
    return some(found, "refusals")


def keys(root):
    """The keys of each list, in the order in which they stand: those that must be there, and those that may."""
    text = source(root, "script_fault", "place")
    names = dict(re.findall(r'KeyName::(\w+) => "([^"]+)"', text))
    found = {}
    for which in ("required_keys", "optional_keys"):
        for name, code in arms(function(text, which), "ListName"):
            asked = [names[key] for key in re.findall(r"KeyName::(\w+)", code)]
            found.setdefault(name.lower(), []).append(asked)
    return some(found, "keys")


def number(text):
    return int(text.replace("_", ""))


def limits(root):
    """The limits of a run and of the entries of a scenario, by their names."""
    text = source(root, "hb_base", "limits")
    found = {name: number(value) for name, value in re.findall(r"const (\w+): \w+ = ([\d_]+);", text)}
    for name, key in (("links", "Every"), ("stops", "Call")):
        pair = re.search(rf"KeyName::{key}\), [\d_]+, ([\d_]+)\)", source(root, "script_reader", name))
        found[key] = number(some(pair, f"limit of {key}").group(1))
    return found


def choices(root):
    """The words that the keys `order`, `shape` and `leave` take."""
    found = {}
    for word, kind in re.findall(r'"(\w+)" => Some\((\w+)::\w+\)', source(root, "script_reader", "words")):
        found.setdefault(kind.lower(), []).append(word)
    return some(found, "words")


def liars(root):
    """The names of the liars, in the order of the cast."""
    text = source(root, "liar_cast", "kind")
    kinds = re.findall(r"(\w+)::new\(\)\.name\(\)", text)
    modules = dict((kind, module) for module, kind in re.findall(r"use crate::(\w+)::(\w+);", text))
    find = re.compile(r'LiarName::of\("(\w+)"\)')
    return some([some(find.search(source(root, "liar_cast", modules[kind])), kind).group(1) for kind in kinds], "liars")


def votes(root):
    """The votes: the byte of each kind, its fields and where it goes."""
    text = source(root, "hb_wire", "vote")
    fields = dict(re.findall(r"\n    (\w+) \{\n(.*?)\n    \}", text.split("pub enum Vote {")[1].split("\n}")[0], re.S))
    goes, kinds = {}, []
    for names, place in re.findall(r"((?:\|?\s*Vote::\w+ \{[^}]*\}\s*)+) => To::(\w+)", function(text, "to")):
        goes.update({name: place for name in re.findall(r"Vote::(\w+)", names)})
    for name, byte in re.findall(r"Vote::(\w+) \{ \.\. \} => 0x(\w\w)", text):
        asked = [field for field in re.findall(r"(\w+):", fields[name]) if field != "epoch"]
        kinds.append((byte, name, asked, goes[name]))
    return some(kinds, "votes")


def words_of_votes(root):
    """The word that a history in words has for each vote, by its name."""
    return some(dict(re.findall(r'Vote::(\w+) \{ \.\. \} => "(\w+) epoch "', source(root, "vote_words", "vote"))), "words of votes")


def answered(root, crate, names):
    """The statuses that these files of a crate answer, each with the lines that may be told with it on standard error."""
    told = {name: line for name, line in re.findall(r'const (\w+): &\[u8; \d+\] = b"(.*)\\n"', source(root, crate, "telling"))}
    found = {}
    for name in names:
        text = source(root, crate, name)
        for constant, status in re.findall(r"\b(?:tell|hint)\((\w+), (\d+),", text):
            found.setdefault(int(status), set()).add(told[constant])
        for status in re.findall(r"(?:Ok\(\(\)\)|Err\(_\)|\{ \.\. \}) => (\d+),", text):
            found.setdefault(int(status), set())
    return some(found, f"statuses of {crate}")


def statuses(root):
    """The statuses that hb_ledger answers, with their lines."""
    found = answered(root, "hb_app", ("telling", "auditing", "alone", "top"))
    for status in re.findall(r"\n\s+(\d+)(?=\n)", "\n" + function(source(root, "run_status", "outcome"), "status") + "\n"):
        found.setdefault(int(status), set())
    return found


def votes_statuses(root):
    """The statuses that hb_votes answers, with their lines."""
    return answered(root, "votes_app", ("telling", "top"))


def fillings(root, text, name, line):
    """The words that take the place of the hole of a line."""
    if "<fate_word>" in line:
        return re.findall(r'(?!Fate::Running)Fate::\w+ => "(\w+)"', text)
    if "ADDRESS" in line:
        return [template(code, text) for _, code in arms(function(text, "add_address"), "To")]
    if not re.search("<word>|<question>", line):
        return [""]
    users = [source(root, crate, part) for crate, part in USERS]
    return re.findall(rf'\b{name}\((?:[^()"]*, )?"(\w+)"', "\n".join(users))


def printed_lines(root):
    """Each line of each text that the program prints: its words, and holes in capitals."""
    found = []
    for crate in ("ledger_text", "observer_text", "accuse_text", "trace_text"):
        text = source(root, crate, "lines")
        for name in re.findall(r"\bfn (put_\w+)", text):
            line = template(function(text, name), text)
            if len(line) > 1 and line.endswith("\n"):
                words = some(fillings(root, text, name, line), f"words of {name}")
                found += [re.sub(r"<(?:word|question|fate_word)>|ADDRESS", word, line[:-1]) for word in words]
    verdicts = re.findall(r'=> \("(\w+ )", \w+\)', source(root, "verdict_text", "verdict"))
    return found + [word + "NUMBER" for word in some(verdicts, "verdicts")]
