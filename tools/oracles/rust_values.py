"""Reads constants out of the sources of tests: numbers, texts, byte strings, lists, tuples and structs.

A struct comes as a dictionary of its fields, a variant without fields as its path, such as 'To::All', and one with fields as a
tuple of its path and these. Some(x) comes as x.
"""
import re

TOKEN = re.compile(r'''
    (?P<space>\s+|//[^\n]*)
  | (?P<raw>b?r\#"(?P<rawbody>.*?)"\#)
  | (?P<text>b?"(?:[^"\\]|\\.)*")
  | (?P<letter>b'(?:[^'\\]|\\.)')
  | (?P<number>0x[0-9A-Fa-f_]+|0b[01_]+|[0-9][0-9_]*(?:u8|u16|u32|u64|usize)?)
  | (?P<name>[A-Za-z_][A-Za-z0-9_]*(?:::[A-Za-z_][A-Za-z0-9_]*)*)
  | (?P<mark>.)
''', re.X | re.S)
ESCAPES = {"n": "\n", "t": "\t", "r": "\r", "0": "\0", "\\": "\\", '"': '"', "'": "'"}


class Unreadable(Exception):
    """A source has no constant of that name, or one of another form."""


def tokens_of(text):
    """The tokens of a text, each as its kind and its letters."""
    found = []
    for match in TOKEN.finditer(text):
        kind = match.lastgroup if match.lastgroup != "rawbody" else "raw"
        if kind != "space":
            found.append((kind, match.group("rawbody") if kind == "raw" else match.group()))
    return found


def unescaped(body):
    """What a text between quotes means: escapes, and lines that are joined by a backslash."""
    def meant(match):
        letters = match.group(1)
        if letters[0] == "x":
            return chr(int(letters[1:], 16))
        if letters[0] == "u":
            return chr(int(letters[2:-1], 16))
        return "" if letters[0] == "\n" else ESCAPES[letters]
    return re.sub(r"\\(x[0-9A-Fa-f]{2}|u\{[0-9A-Fa-f]+\}|\n\s*|.)", meant, body, flags=re.S)


def number_of(letters):
    letters = re.sub(r"(?<=[0-9_])(u8|u16|u32|u64|usize)$", "", letters).replace("_", "")
    return int(letters, 0) if letters[:2] in ("0x", "0b") else int(letters)


class Reader:
    """Reads one expression from a list of tokens."""

    def __init__(self, tokens, constants):
        self.tokens, self.place, self.constants = tokens, 0, constants

    def peek(self):
        return self.tokens[self.place][1] if self.place < len(self.tokens) else ""

    def take(self, wanted=None):
        if self.place >= len(self.tokens) or wanted not in (None, self.peek()):
            raise Unreadable(f"{wanted} is missing before {self.peek()}")
        self.place += 1
        return self.tokens[self.place - 1]

    def items(self, end):
        """What stands up to this bracket, with commas between, and whether there was a comma."""
        found, has_comma = [], False
        while self.peek() != end:
            found.append(self.value())
            if self.peek() == ";":
                self.take()
                found = found * self.value()
            elif self.peek() == ",":
                self.take()
                has_comma = True
        self.take(end)
        return found, has_comma

    def fields(self):
        found = {}
        while self.peek() != "}":
            name = self.take()[1]
            self.take(":")
            found[name] = self.value()
            if self.peek() == ",":
                self.take()
        self.take("}")
        return found

    def named(self, name):
        if name in ("true", "false"):
            return name == "true"
        if self.peek() == "{":
            self.take()
            return self.fields()
        if self.peek() == "(":
            self.take()
            found, _ = self.items(")")
            return found[0] if name == "Some" else (name, *found)
        if name == "None":
            return None
        return self.constants(name) if name.isupper() else name

    def value(self):
        kind, letters = self.take()
        if letters in "&-" and kind == "mark":
            found = self.value()
            return found if letters == "&" else -found
        if letters == "[":
            return self.items("]")[0]
        if letters == "(":
            found, has_comma = self.items(")")
            return tuple(found) if has_comma or len(found) != 1 else found[0]
        if kind == "number":
            return number_of(letters)
        if kind == "letter":
            return ord(unescaped(letters[2:-1]))
        if kind == "raw":
            return letters
        if kind == "text":
            is_bytes = letters[0] == "b"
            body = unescaped(letters[2 if is_bytes else 1:-1])
            return body.encode("latin-1") if is_bytes else body
        if kind == "name":
            return self.named(letters)
        raise Unreadable(f"{letters} begins no value")


def constant(text, name):
    """The value of a constant of a source."""
    head = re.search(rf"\b(?:const|static)\s+{name}\s*:", text)
    if head is None:
        raise Unreadable(f"there is no constant {name}")
    tokens, depth = tokens_of(text[head.end():]), 0
    for place, (_, letters) in enumerate(tokens):
        depth += (letters in "([<") - (letters in ")]>")
        if letters == "=" and depth == 0:
            return Reader(tokens[place + 1:], lambda other: constant(text, other)).value()
    raise Unreadable(f"the constant {name} has no value")
