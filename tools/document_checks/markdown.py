"""What a document in Markdown is made of: prose, tables, code, headings and links. Lines are numbered from 1."""
import functools
import re
from collections import Counter, namedtuple

Table = namedtuple("Table", "line heading header rows")
Block = namedtuple("Block", "line kind text")
Prose = namedtuple("Prose", "line text")

ABBREVIATIONS = ("e.g.", "i.e.", "al.", "cf.", "vs.")
SPAN = re.compile(r"(`+)(.+?)\1")
LINK = re.compile(r"!?\[([^\]]*)\]\(([^)\s]*)[^)]*\)")
ITEM = re.compile(r"\s*(?:[-*+]|\d+[.)])\s+")


@functools.cache
def split_code(text):
    """The lines outside of code blocks, numbered, and the code blocks."""
    outside, blocks, fence, start, kept = [], [], None, 0, []
    for number, line in enumerate(text.split("\n"), 1):
        mark = re.match(r"\s*(```+|~~~+)(.*)", line)
        if fence is None and mark:
            fence, start, kept = mark.group(1), number, []
            kind = mark.group(2).strip()
        elif fence is not None and line.strip().startswith(fence):
            blocks.append(Block(start, kind, "\n".join(kept) + "\n"))
            fence = None
        elif fence is not None:
            kept.append(line)
        else:
            outside.append((number, line))
    return outside, blocks


def code_blocks(text):
    return split_code(text)[1]


def is_row(line):
    return line.lstrip().startswith("|")


def cells(line):
    """The cells of a row. A bar that belongs to a cell stands behind a backslash."""
    parts = re.split(r"(?<!\\)\|", line.strip().strip("|"))
    return [part.strip().replace("\\|", "|") for part in parts]


@functools.cache
def tables(text):
    """The tables, each under the title of the heading above it."""
    found, heading, rows, start = [], "", [], 0
    for number, line in split_code(text)[0] + [(0, "")]:
        if is_row(line):
            start = start if rows else number
            rows.append((number, cells(line)))
            continue
        if len(rows) > 1:
            found.append(Table(start, heading, rows[0][1], rows[2:]))
        rows = []
        if line.startswith("#"):
            heading = line.lstrip("#").strip()
    return found


def table_under(text, heading, first):
    """The table under a heading whose first column has this title, or None."""
    for table in tables(text):
        if table.heading == heading and table.header[0] == first:
            return table
    return None


def spans(text):
    """The code spans of a text."""
    return [match.group(2).strip() for match in SPAN.finditer(text)]


@functools.cache
def prose(text):
    """Paragraphs and items of lists, without headings, tables and code blocks."""
    found, start, kept, last = [], 0, [], 0
    for number, line in split_code(text)[0] + [(0, "")]:
        line = line.removeprefix(">")
        is_break = not line.strip() or is_row(line) or line.startswith("#")
        if kept and (is_break or ITEM.match(line) or number != last + 1):
            found.append(Prose(start, " ".join(kept)))
            kept = []
        if not is_break:
            start = start if kept else number
            item = ITEM.match(line)
            kept.append(line[item.end():].strip() if item else line.strip())
        last = number
    return found


def plain(text):
    """A text in which a code span is one word, and a link its own text."""
    text = SPAN.sub("Code", text)
    return LINK.sub(r"\1", text)


def words(text):
    return [word for word in text.split() if re.search(r"\w", word)]


@functools.cache
def sentences(text):
    """The sentences of a paragraph. An abbreviation ends none."""
    found, kept = [], []
    for word in plain(text).split():
        kept.append(word)
        bare = word.rstrip("\"')]*_")
        if bare.endswith((".", "!", "?")) and bare.lstrip("\"'([*_") not in ABBREVIATIONS:
            found.append(" ".join(kept))
            kept = []
    return found + ([" ".join(kept)] if kept else [])


@functools.cache
def anchors(text):
    """The anchors of the headings, as they are made of their titles. A title that comes again has a number behind it."""
    found, counts = [], Counter()
    for _, line in split_code(text)[0]:
        if re.match(r"#{1,6} ", line):
            title = plain_title(line.lstrip("#").strip())
            found.append(f"{title}-{counts[title]}" if counts[title] else title)
            counts[title] += 1
    return found


def plain_title(title):
    title = LINK.sub(r"\1", title).replace("`", "").lower()
    return re.sub(r"[^\w\- ]", "", title).replace(" ", "-")


@functools.cache
def links(text):
    """The targets of links, with their lines."""
    found = []
    for number, line in split_code(text)[0]:
        found += [(number, match.group(2)) for match in LINK.finditer(SPAN.sub("", line))]
    return found
