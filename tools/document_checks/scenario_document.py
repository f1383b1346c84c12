"""Holds docs/SCENARIOS.md to the code, to the files of scenarios/ and to the schema. Each check answers what it found wrong."""
import pathlib
import re

from . import facts, markdown

NAME = "docs/SCENARIOS.md"
# The heading of the words of votes.
WORDS = "votes: a history in words"
# How the document tells where a vote goes.
PLACES = {"Book": "book", "Home": "home", "All": "to all", "Node": "to the target"}
# A hole of a line in the code, which the document may call as it likes.
HOLE = r"(?:NUMBER|HEX|<\w+>)"


def read(root):
    return (pathlib.Path(root) / NAME).read_text(encoding="utf-8")


def rows_under(text, heading, first):
    """The rows of the table under a heading, and what is wrong if there is none."""
    table = markdown.table_under(text, heading, first)
    if table is None:
        return [], [f"{NAME}: there is no table with the column {first} under '{heading}'"]
    return table.rows, []


def compare(what, wanted, found):
    """What of the code is not in the document, and what of the document is not in the code."""
    missing = [f"{NAME}: {what} {item} of the code is not there" for item in wanted if item not in found]
    return missing + [f"{NAME}: {what} {item} is not in the code" for item in found if item not in wanted]


def refusals(root):
    """Each refusal stands there with its number, its name and its line."""
    wanted = facts.refusals(root)
    rows, wrong = rows_under(read(root), "Refusals", "No.")
    found = {int(row[0]): (markdown.spans(row[1]), markdown.spans(row[2])) for _, row in rows if row[0].isdigit()}
    wrong += compare("refusal", wanted, found)
    for number, line in wanted.items():
        if number in found and found[number] != ([line.split()[2]], [line]):
            wrong.append(f"{NAME}: refusal {number} is `{line}` in the code")
    return wrong


def keys(root):
    """Each key stands under its list, and is told as refused where it is absent exactly if it has to be there."""
    wrong = []
    for name, (required, optional) in facts.keys(root).items():
        heading = "Top level" if name == "top" else name
        rows, absent = rows_under(read(root), heading, "Key")
        found = {"".join(markdown.spans(row[0])): row for _, row in rows}
        wrong += absent + compare(f"key of {name}", required + optional, found)
        for key in set(found) & set(required + optional):
            if (found[key][3] == "refused") != (key in required):
                wrong.append(f"{NAME}: what happens where {key} of {name} is absent is told wrongly")
    return wrong


def entry_rules(schema, name):
    """What a schema asks of the keys of the top, or of the entries of a list."""
    return schema["properties"] if name == "top" else schema["$defs"][name]["items"]["properties"]


def key_limits(root, schema):
    """The limits of numbers and the words of texts are those of the schema."""
    wrong = []
    for name in facts.keys(root):
        rows, _ = rows_under(read(root), "Top level" if name == "top" else name, "Key")
        for _, row in rows:
            key = "".join(markdown.spans(row[0]))
            rule = entry_rules(schema, name).get(key, {})
            if "minimum" in rule and not has_range(row[2], rule):
                wrong.append(f"{NAME}: the limits of {key} of {name} are not those of the schema")
            words = [word for word in rule.get("enum", []) if key != "name" and word not in markdown.spans(row[2])]
            wrong += [f"{NAME}: the word {word} of {key} of {name} is not there" for word in words]
    return wrong


def has_range(cell, rule):
    """Whether a cell has the range of a number. Its end may hang on other numbers of the scenario."""
    start, _, end = cell.replace(",", "").partition(" to ")
    return start == str(rule["minimum"]) and (not end.isdigit() or end == str(rule["maximum"]))


def liars(root):
    """Each kind of liar stands there."""
    rows, wrong = rows_under(read(root), "What each liar does", "Name")
    return wrong + compare("liar", facts.liars(root), ["".join(markdown.spans(row[0])) for _, row in rows])


def votes(root):
    """The byte of each vote stands there, with its name, its fields and where it goes."""
    rows, wrong = rows_under(read(root), "Votes and their bytes", "Kind")
    found = {"".join(markdown.spans(row[0])): row for _, row in rows}
    wanted = facts.votes(root)
    wrong += compare("vote", [byte for byte, *_ in wanted], found)
    for byte, name, fields, goes in wanted:
        if byte not in found:
            continue
        row = found[byte]
        if markdown.spans(row[1]) != [name] or row[3] != PLACES[goes]:
            wrong.append(f"{NAME}: vote {byte} is {name} in the code, and goes {PLACES[goes]}")
        lost = [field for field in fields if not re.search(rf"\b{field}\b", row[2])]
        wrong += [f"{NAME}: the field {field} of vote {byte} is not there" for field in lost]
    return wrong


def words_of_votes(root):
    """The word for each vote in a history in words stands there, with the vote."""
    rows, wrong = rows_under(read(root), WORDS, "Words")
    first = [(row[1], (markdown.spans(row[0]) or [""])[0]) for _, row in rows]
    found = {span.split()[0]: re.split(r"\W", vote)[0] for vote, span in first if " epoch " in span}
    wanted = {word: vote for vote, word in facts.words_of_votes(root).items()}
    wrong += compare("word of a vote", wanted, found)
    return wrong + [f"{NAME}: the word {word} is that of {vote} in the code" for word, vote in wanted.items()
                    if found.get(word, vote) != vote]


def statuses(root):
    """Each status of either program stands there, with what is told on standard error."""
    wrong = []
    for heading, wanted in (("Statuses and standard error", facts.statuses(root)), (WORDS, facts.votes_statuses(root))):
        wrong += statuses_under(read(root), heading, wanted)
    return wrong


def statuses_under(text, heading, wanted):
    """What is wrong with the table of statuses under a heading."""
    rows, wrong = rows_under(text, heading, "Status")
    found = {int(row[0]): row for _, row in rows if row[0].isdigit()}
    wrong += compare("status", wanted, found)
    for status, told in wanted.items():
        lost = [line for line in told if line not in markdown.spans(found[status][2])] if status in found else []
        wrong += [f"{NAME}: status {status} goes with the line `{line}`" for line in lost]
    return wrong


def lines(root):
    """Each line that a text may have stands in a code span of its own."""
    cells = [cell for table in markdown.tables(read(root)) for _, row in table.rows for cell in row]
    spans = [span for cell in cells for span in markdown.spans(cell)]
    wrong = []
    for line in facts.printed_lines(root):
        form = "".join(r"\S+" if re.fullmatch(HOLE, part) else re.escape(part) for part in re.split(f"({HOLE})", line))
        if not any(re.fullmatch(form, span) for span in spans):
            wrong.append(f"{NAME}: the line `{line}` of a text is not there")
    return wrong


def scenario_files(root):
    """The scenarios that ship. The schema among them is none."""
    return [path for path in sorted((pathlib.Path(root) / "scenarios").glob("*.json")) if path.name != "schema.json"]


def examples(root):
    """A scenario that is shown is one that ships, and a text that is shown is a front of one that a file has."""
    folder = pathlib.Path(root) / "scenarios"
    inputs = [path.read_text(encoding="utf-8") for path in scenario_files(root)]
    texts = [path.read_text(encoding="utf-8") for path in folder.glob("*.out")]
    wrong, shown = [], 0
    for block in markdown.code_blocks(read(root)):
        if block.kind == "json" and '"nodes"' in block.text:
            shown += 1
            if block.text not in inputs:
                wrong.append(f"{NAME}:{block.line}: this scenario is no file of scenarios/")
        elif re.match("(run|trace|observe|accuse) nodes ", block.text):
            shown += 1
            if not any(text.startswith(block.text) for text in texts):
                wrong.append(f"{NAME}:{block.line}: no file of scenarios/ begins with this text")
    return wrong + ([] if shown else [f"{NAME}: it shows no scenario"])


def shown_input(path):
    """What the table of refused inputs has of a file, and None where it is too long to be shown."""
    text = path.read_text(encoding="utf-8").strip()
    if path.suffix == ".spaces":
        return f"{int(text):,} spaces"
    return f"`{text}`" if len(text) <= 150 else None


def refused_inputs(root):
    """Each input of scenarios/refused/ stands there with what is told of it, and each refusal has one."""
    folder = pathlib.Path(root) / "scenarios" / "refused"
    rows, wrong = rows_under(read(root), "Refusals", "File")
    found = {"".join(markdown.spans(row[0])): row for _, row in rows}
    files = [path for path in sorted(folder.iterdir()) if path.suffix != ".out"]
    wrong += [f"{NAME}: {path.name} of scenarios/refused is not there" for path in files if path.name not in found]
    wrong += [f"{NAME}: there is no scenarios/refused/{name}" for name in found if not (folder / name).is_file()]
    for path in files:
        told = path.with_suffix(".out")
        if not told.is_file() or path.name not in found:
            wrong.append(f"{NAME}: {path.name} has no row, or no file .out")
            continue
        row = found[path.name]
        if shown_input(path) not in (row[1], None) or row[2] != f"`{told.read_text(encoding='utf-8').strip()}`":
            wrong.append(f"{NAME}: {path.name} is shown otherwise than the files have it")
    told = {int(path.name.split("_")[0]) for path in files}
    return wrong + [f"scenarios/refused: refusal {number} has no input" for number in facts.refusals(root) if number not in told]
