"""Puts the sources of the viewer, the texts of a run and the text of its history together into one page."""
import base64
import json
import re
import zlib
from pathlib import Path

SOURCES = Path(__file__).resolve().parent
IMPORT = re.compile(r'^import \{([^}]*)\} from "\./([a-z_]+\.js)";\n', re.MULTILINE)
EXPORT = re.compile(r"^export (?=(?:async )?function|class|const)", re.MULTILINE)
EXPORTED = re.compile(r"^export (?:async )?(?:function|class|const) (\w+)", re.MULTILINE)
# a multiple of 3, so that the base64 of the pieces is the base64 of the whole
PIECE = 3 << 18


def modules_from(name, done):
    """The modules that one imports, directly or not, and itself, each behind those that it imports."""
    text = (SOURCES / name).read_text(encoding="utf-8")
    for _, wanted in IMPORT.findall(text):
        if wanted not in done:
            modules_from(wanted, done)
    done[name] = text
    return done


def wrapped(name, text):
    """A module as a function of its own that answers what it exports."""
    names = ", ".join(EXPORTED.findall(text))
    body = IMPORT.sub(lambda found: f'const {{{found[1]}}} = modules["{found[2]}"];\n', text)
    body = EXPORT.sub("", body)
    return f'modules["{name}"] = (() => {{\n{body}\nreturn {{ {names} }};\n}})();\n'


def script(name="main.js"):
    """One script of all modules that are needed."""
    parts = [wrapped(module, text) for module, text in modules_from(name, {}).items()]
    return '"use strict";\nconst modules = {};\n' + "".join(parts)


def packed(source):
    """The pieces of a binary file, compressed by gzip and in base64."""
    squeezer = zlib.compressobj(6, zlib.DEFLATED, 31)
    left = b""
    while piece := source.read(1 << 20):
        left += squeezer.compress(piece)
        ready = len(left) - len(left) % PIECE
        if ready:
            yield base64.b64encode(left[:ready])
            left = left[ready:]
    yield base64.b64encode(left + squeezer.flush())


def write_page(out, data, trace, main="main.js"):
    """Writes the page to a binary file: `data` are the texts of the run, `trace` is a binary file with its history."""
    page = (SOURCES / "page.html").read_text(encoding="utf-8")
    title = data["title"].replace("&", "&amp;").replace("<", "&lt;")
    parts = {
        "TITLE": title,
        "STYLE": (SOURCES / "style.css").read_text(encoding="utf-8"),
        "SCRIPT": script(main).replace("</", "<\\/").replace("<!--", "<\\!--"),
        "DATA": json.dumps(data).replace("<", "\\u003c"),
    }
    for piece in re.split(r"(@[A-Z]+@)", page):
        if piece == "@TRACE@":
            for text in packed(trace):
                out.write(text)
        elif piece.strip("@") in parts and piece.startswith("@"):
            out.write(parts[piece.strip("@")].encode())
        else:
            out.write(piece.encode())
