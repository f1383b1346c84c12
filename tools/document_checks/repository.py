"""Holds all documents to their limits and to the files that they name. Each check answers what it found wrong."""
import fnmatch
import functools
import os
import pathlib
import re

from . import markdown

# The documents that have to be there.
KNOWN = ["README.md", "CONTRIBUTING.md", "CHANGELOG.md", "docs/ARCHITECTURE.md", "docs/BENCHMARKS.md", "docs/DECISIONS.md",
         "docs/DEFINITIONS.md", "docs/GLOSSARY.md", "docs/PROOF.md", "docs/SCENARIOS.md", "docs/TESTED.md", "scenarios/README.md"]
# Those whose sentences are short.
SHORT = ["README.md", "CONTRIBUTING.md", "docs/PROOF*.md", "docs/SCENARIOS.md", "docs/TESTED.md", "docs/BENCHMARKS.md",
         "docs/GLOSSARY.md"]
MOST_LINES, LONGEST_LINE, MOST_WORDS, MOST_ROW_WORDS = 120, 130, 30, 40
# A name with one of these endings is that of a file, also without a folder.
ENDINGS = (".md", ".txt", ".rt", ".antt", ".edit", ".bends", ".out", ".py")
PATH = re.compile(r"\.?[\w*-][\w.*{},-]*(?:/[\w.*{},-]*)+|[\w.*-]+\.\w+")


def documents(root):
    """The documents that are there, by their paths."""
    top = pathlib.Path(root)
    names = {path.relative_to(top).as_posix() for path in top.glob("docs/*.md")} | set(KNOWN)
    return {name: (top / name).read_text(encoding="utf-8") for name in sorted(names) if (top / name).is_file()}


def are_there(root):
    """Each document that is known is there."""
    return [f"{name}: is not there" for name in KNOWN if not (pathlib.Path(root) / name).is_file()]


def readme_size(root):
    """README.md is short enough to be read at once."""
    lines = documents(root).get("README.md", "").split("\n")[:-1]
    wrong = [f"README.md: it has {len(lines)} lines, more than {MOST_LINES}"] if len(lines) > MOST_LINES else []
    return wrong + [f"README.md:{number}: the line has {len(line)} characters, more than {LONGEST_LINE}"
                    for number, line in enumerate(lines, 1) if len(line) > LONGEST_LINE]


def sentences(root):
    """Sentences are short."""
    wrong = []
    for name, text in documents(root).items():
        if not any(fnmatch.fnmatch(name, pattern) for pattern in SHORT):
            continue
        for line, part in markdown.prose(text):
            counts = [(len(markdown.words(sentence)), sentence) for sentence in markdown.sentences(part)]
            wrong += [f"{name}:{line}: a sentence has {count} words, more than {MOST_WORDS}: {sentence[:60]}.."
                      for count, sentence in counts if count > MOST_WORDS]
    return wrong


def proof_rows(root):
    """The rows of the tables of docs/PROOF*.md are short. Names in code are not counted."""
    wrong, rows = [], 0
    for name, text in documents(root).items():
        for table in markdown.tables(text) if name.startswith("docs/PROOF") else []:
            for line, row in table.rows:
                rows += 1
                count = len(markdown.words(markdown.LINK.sub(r"\1", markdown.SPAN.sub("", " ".join(row)))))
                if count > MOST_ROW_WORDS:
                    wrong.append(f"{name}:{line}: the row has {count} words, more than {MOST_ROW_WORDS}")
    return wrong + ([] if rows else ["docs/PROOF.md: no document there has a table"])


def crates(root):
    """Each crate stands in the document on the layers or in one on the proofs."""
    listed = (pathlib.Path(root) / "crates.txt").read_text(encoding="utf-8")
    names = re.findall(r"^(\w+)[^:\n]*:", listed, re.M)
    text = "\n".join(text for name, text in documents(root).items() if name.startswith(("docs/ARCHITECTURE", "docs/PROOF")))
    wrong = [f"docs: the crate {name} stands in none" for name in names if not re.search(rf"\b{name}\b", text)]
    return wrong + ([] if names else ["crates.txt: it lists no crate"])


def files(root):
    """The paths of all files and folders, but for what builds and the system of versions keep."""
    found = set()
    for folder, names, plain in os.walk(root, followlinks=True):
        names[:] = [name for name in names if name not in (".git", "out", "__pycache__")]
        base = os.path.relpath(folder, root)
        found.update(name if base == "." else f"{base}/{name}" for name in names + plain)
    return found


def short_names(there):
    """What stands for a file besides its path: its path within a crate, and its name alone."""
    within = {path.split("/", 2)[2] for path in there if path.startswith("crates/") and path.count("/") > 1}
    return within | {os.path.basename(path) for path in there}


def forms_of(path):
    """What a path may stand for: itself, any name in the place of a placeholder, and each choice between braces."""
    path = re.sub(r"\b(?:NAME|CRATE)\b", "*", path.removeprefix("./").rstrip("/"))
    choice = re.search(r"\{([^}]*)\}", path)
    if not choice:
        return [path]
    return [path.replace(choice.group(0), part.strip()) for part in choice.group(1).split(",")]


def is_there(path, folder, there, short):
    """Whether a path that a document in a folder names is there: from the top, from that folder, from that of a crate, or by its
    name alone."""
    def stands(form):
        wholes = [(form, there), (f"{folder}/{form}", there), (form, short)]
        return any(whole in names or "*" in whole and fnmatch.filter(names, whole) for whole, names in wholes)
    return all(stands(form) for form in forms_of(path))


@functools.cache
def named_paths(text, tops):
    """The paths that a text names, with their lines. In prose only what begins with a folder of the top counts, in code all that
    has the form of one."""
    found, named = [], []
    outside, blocks = markdown.split_code(text)
    for number, line in outside:
        found += [(number, word, True) for span in markdown.spans(line) for word in span.split()]
        rest = markdown.LINK.sub(r" \1 ", markdown.SPAN.sub(" ", line)).split()
        found += [(number, word, False) for word in rest if "/" in word]
    for block in blocks:
        found += [(block.line, word, False) for word in block.text.split() if "/" in word]
    for number, word, is_code in found:
        word = word.lstrip("\"'([").rstrip("\"')],;:!?.").removeprefix("./")
        counts = is_code or word.split("/")[0] in tops if "/" in word else is_code and word.endswith(ENDINGS)
        if counts and "/out" not in word and PATH.fullmatch(word):
            named.append((number, word))
    return named


def paths(root):
    """Each path that a document names is there."""
    there = files(root)
    short = short_names(there)
    tops = frozenset(path for path in there if "/" not in path and (pathlib.Path(root) / path).is_dir())
    wrong, seen = [], 0
    for name, text in documents(root).items():
        for line, word in named_paths(text, tops):
            seen += 1
            if not is_there(word, str(pathlib.PurePosixPath(name).parent), there, short):
                wrong.append(f"{name}:{line}: there is no {word}")
    return wrong + ([] if seen else ["docs: no path is named"])


def has_anchor(path, anchor):
    return path.suffix == ".md" and anchor in markdown.anchors(path.read_text(encoding="utf-8"))


def links(root):
    """Each link to a file of the repository, and to a heading of one, leads somewhere."""
    wrong, top = [], pathlib.Path(root)
    for name, text in documents(root).items():
        for line, target in markdown.links(text):
            path, _, anchor = target.partition("#")
            if re.match(r"[a-z]+:", target):
                continue
            goal = os.path.normpath(os.path.join(os.path.dirname(name), path)) if path else name
            if goal.startswith("..") or not (top / goal).exists():
                wrong.append(f"{name}:{line}: the link {target} leads nowhere")
            elif anchor and not has_anchor(top / goal, anchor):
                wrong.append(f"{name}:{line}: the link {target} leads to no heading")
    return wrong
