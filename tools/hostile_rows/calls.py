"""What several rows ask of the program: a text that is read, a history that is audited, a text that is known."""
import itertools

import ledgers

from hostile_rows.program import Limits, tell
from hostile_rows.texts import Scene, Wrong, read_answer

# What a run may end with that finds memory, and whose output is taken.
ENDS = (0, 4, 5)


def read(bench, word, given, statuses=ENDS, limits=Limits()):
    """The answer of a word on a scenario, and what its text says. Raises Wrong."""
    answer = bench.ask([word], given, limits)
    try:
        return answer, read_answer(word, given, answer, statuses)
    except Wrong as why:
        raise Wrong(f"{word}: {why} ({tell(answer)})") from why


def read_legal(bench, given, statuses=ENDS, limits=Limits()):
    """The posts of the history of a scenario, which `audit` has to call legal, with all of them. Raises Wrong."""
    answer, posts = read(bench, "trace", given, statuses, limits)
    said = bench.ask(["audit"], answer.out)
    if (said.status, said.out, said.err) != (0, f"legal {len(posts)}\n".encode(), b""):
        raise Wrong(f"audit of {len(posts)} posts said '{said.out.decode(errors='replace').strip()}' ({tell(said)})")
    return posts


def check_ledgers_of(given, posts):
    """Holds the ledgers of a history to what it says, by the bytes of its votes alone. Of two correct nodes' ledgers one begins
    with the other, each list has the batches of n - f nodes, and of correct nodes it has what they proposed. Raises Wrong."""
    scene = Scene(given)
    said = [(node, actor, bytes.fromhex(code.replace("-", ""))) for node, actor, _, code in posts]
    run = ledgers.Run(scene.nodes, scene.faulty, scene.version, scene.liars, said)
    answers = run.are_comparable(), run.have_batches_enough(), run.are_unaltered()
    if answers != (True, True, True):
        raise Wrong(f"whether the ledgers of the history are comparable, have batches enough and are unaltered: {answers}")


def place_of_difference(found, wanted):
    """The first place in which two lists differ. Where one begins with the other it is the end of the shorter one."""
    places = (place for place, pair in enumerate(zip(found, wanted)) if pair[0] != pair[1])
    return next(places, min(len(found), len(wanted)))


def post_at(posts, place):
    """The post at a place of a list, or that there is none."""
    return posts[place] if place < len(posts) else "none"


def difference(found, wanted):
    """The first line in which two texts differ, if they do."""
    lines = (text.decode(errors="replace").split("\n") for text in (found, wanted))
    for number, (line, other) in enumerate(itertools.zip_longest(*lines, fillvalue=""), 1):
        if line != other:
            return f"; line {number} is '{line[:60]}' in the place of '{other[:60]}'"
    return ""


def compare(answer, status, out, err=b""):
    """What is wrong with an answer that has to be this one, if anything is."""
    if (answer.status, answer.out, answer.err) == (status, out, err):
        return None
    wanted = f"status {status}, {len(out)} bytes, '{err.decode().strip()}'"
    return f"{tell(answer)}, and not {wanted}{difference(answer.out, out)}"
