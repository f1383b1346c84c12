"""Compares the page's decoder with the one of these tests, and with `./run --votes` where that is there."""
import base64
import gzip
import json
import re
import shutil
import subprocess
import sys
import tempfile
from pathlib import Path

import texts
import votes

sys.path.insert(0, str(texts.TOP / "viewer"))
import bundle  # noqa: E402

SCENARIOS = ["four_nodes", "equivocating_liar", "torn_stops", "version_2", "sixteen_nodes", "workers"]

# Answers the vote of each hex string of a list, with its parts in hex, and the vote in words.
HARNESS = """
const { decodeVote, hexOf, voteText } = modules["votes.js"];
const plain = (bytes, part) => typeof part === "object" ? hexOf(bytes, part) : part;
function named(hex, nodes, version) {
  const bytes = Uint8Array.from(hex.match(/../g) || [], (pair) => parseInt(pair, 16));
  const vote = decodeVote(bytes, 0, bytes.length, nodes, version);
  const shown = vote && {};
  for (const [name, part] of Object.entries(vote || {})) {
    shown[name] = name === "items" ? part.map((item) => [item.node, plain(bytes, item.value)]) : plain(bytes, part);
  }
  return [shown, voteText(bytes, vote)];
}
const answer = ({ strings, nodes, version }) => strings.map((hex) => named(hex, nodes, version));
"""


def script():
    """The page's decoder with the harness."""
    return bundle.script("votes.js") + HARNESS


def by_node(question):
    """What the page's decoder answers under node."""
    with tempfile.TemporaryDirectory() as folder:
        path = Path(folder, "decode.js")
        path.write_text(script() + 'console.log(JSON.stringify(answer(JSON.parse(require("fs").readFileSync(0, "utf8")))));')
        done = subprocess.run(["node", path], input=json.dumps(question), capture_output=True, text=True, check=True)
    return json.loads(done.stdout)


def by_browser(driver, question):
    """The same in a browser."""
    return json.loads(driver.execute_script(f"{script()}\nreturn JSON.stringify(answer(arguments[0]));", question))


def as_trace(strings, nodes, version):
    """A text of a history whose posts have these bytes."""
    lines = [f"trace nodes {nodes} faulty 0 version {version} epochs 32 rounds 32 batch 64 seed 0 liars 0"]
    lines += [f"post {k} from 0 actor 0 to all {data.hex() or '-'}" for k, data in enumerate(strings)]
    return "\n".join([*lines, f"end {len(strings)}", ""])


def trace_in(page):
    """The text of the history that a page carries: with workers each run has another."""
    packed = re.search(r'id="trace-data">([^<]*)<', page.read_text(encoding="utf-8"))[1]
    return gzip.decompress(base64.b64decode(packed)).decode()


def has_votes():
    """Whether ./run prints votes in words."""
    return "--votes" in (texts.TOP / "run").read_text()


def by_program(strings, nodes, version):
    """The votes in words as `./run --votes` prints them."""
    with tempfile.NamedTemporaryFile("w", suffix=".trace") as file:
        file.write(as_trace(strings, nodes, version))
        file.flush()
        lines = texts.program("--votes", file.name).splitlines()
    return [line.partition(": ")[2] for line in lines if line.startswith("post ")]


def check_decoder(checks, trace, answer):
    """The page's decoder on all posts of a history and on 200 broken byte strings."""
    strings = trace.bytes + votes.broken([data for data in trace.bytes if data], 200)
    own = [votes.decode(data, trace.nodes, trace.version) for data in strings]
    checks.true("more than half of the broken strings are no vote", sum(vote is None for vote in own[-200:]) > 100)
    found = answer({"strings": [data.hex() for data in strings], "nodes": trace.nodes, "version": trace.version})
    words = [votes.words(vote) for vote in own]
    differ = [data.hex() for data, vote, text, other in zip(strings, own, words, found) if [vote, text] != other]
    checks.same("the strings that the page decodes otherwise", (len(found), differ), (len(strings), []))
    if has_votes():
        checks.same("the votes in words of ./run --votes", by_program(strings, trace.nodes, trace.version), words)


class Checks:
    """Counts what was asked, and tells what does not hold."""

    def __init__(self):
        self.count, self.failed, self.about = 0, 0, ""

    def fail(self, text):
        """Tells that something does not hold."""
        self.failed += 1
        print(f"{self.about}: {text}", file=sys.stderr)

    def true(self, text, holds):
        """Something has to hold."""
        self.count += 1
        if not holds:
            self.fail(f"{text}: no")

    def same(self, text, found, wanted):
        """Something has to be what is wanted."""
        self.count += 1
        if found != wanted:
            self.fail(f"{text}: {str(found)[:300]} in the place of {str(wanted)[:300]}")


def end(checks):
    """Tells the end of the tests; answers the exit status."""
    if not has_votes():
        print("./run --votes is not there: the decoder was compared with the one of the tests alone")
    print(f"{checks.count} checks, {checks.failed} failed")
    return 1 if checks.failed else 0


def main():
    """The decoder's tests without a browser."""
    if not shutil.which("node"):
        print("viewer/test: the decoder's test without a browser needs node, which is not here", file=sys.stderr)
        return 77
    checks = Checks()
    for name in SCENARIOS:
        checks.about = name
        check_decoder(checks, texts.Trace(texts.program("--trace", str(texts.scenario(name)))), by_node)
    return end(checks)


if __name__ == "__main__":
    sys.exit(main())
