"""Histories: whom they accuse, whether their ledgers agree, which posts may follow, what observers take, and the texts of runs.
Each check yields a place, what the test wants, and what is made here."""
import re

import codes
import ledgers
import rust_values
import votes
from legal_posts import History

JUDGES = "crates/judge_cases/src/"
TEXTS = "crates/text_cases/src/"
ALIKE = {"r": 32, "s": 32, "t": 16, "u": 16, "v": 64, "w": 64}


def bytes_told(word):
    """Two digits of base 16 for each byte; r and s for roots, t and u for salts, v and w for branches, l for a length of 1."""
    return b"".join(part[0].encode() * ALIKE[part] if part in ALIKE else b"\0\0\0\1" if part == "l" else bytes.fromhex(part)
                    for part in word.split(".") if part)


def accusations(sources):
    rows = [*sources.constant(JUDGES + "histories.rt", "ACCUSING"), *sources.constant(JUDGES + "near_misses.rt", "NEAR_MISSES")]
    for what, n, version, words, wanted in rows:
        posts = [(data[0], data[1], data[2:]) for data in map(bytes_told, words)]
        yield what, wanted, ledgers.accused(n, version, posts)


def accusation_texts(sources):
    for n, version, told, status, text in sources.constant(JUDGES + "texts.rt", "TEXTS"):
        head = f"accuse nodes {n} faulty {(n - 1) // 3} version {version} epochs 1\n"
        made = head + "".join(f"accused {node} posts {first} {second}\n" for node, first, second in told) + f"end {status}\n"
        yield f"the text of {told}", text, made


# ---- ledgers, told by words: the node, the actor, the kind, two digits of the epoch, and letters

def post_told(n, word, value_of):
    node, actor, kind, epoch, letters = int(word[0], 16), word[1], word[2], int(word[3:5]), word[5:]
    if kind == "C":
        items = [(m, value_of(letter)) for m, letter in enumerate(letters) if letter != "-"]
        data = bytes([0x12, epoch, len(items)]) + b"".join(bytes([m]) + votes.counted(value) for m, value in items)
    else:
        data = bytes([0x10 if kind == "P" else 0x04, epoch]) + votes.counted(value_of(letters[0]))
    return node, n if actor == "d" else int(actor, 16), data


def run_told(n, f, version, liars, history, value_of=str.encode):
    return ledgers.Run(n, f, version, liars, [post_told(n, word, value_of) for word in history.split()])


def answers_on_ledgers(sources):
    path = JUDGES + "ledgers.rt"
    questions = (("LISTS", 1, ledgers.Run.have_batches_enough), ("PROPOSALS", 2, ledgers.Run.are_unaltered),
                 ("LEDGERS", 2, ledgers.Run.are_comparable))
    for name, version, question in questions:
        for wanted, history in sources.constant(path, name):
            yield f"{name}: {history}", wanted, question(run_told(4, 1, version, [3], history))
    for wanted, at_work, history in sources.constant(path, "COMMONS"):
        yield f"COMMONS: {history}", wanted, run_told(4, 1, 2, [3], history).epochs_in_common(at_work)


# values that are told by one letter: batches, and bytes that are none
VALUES = {"T": b"\0\2\0\1a\0\1a", "M": b"\0\3\0\1a\0\1b\0\2\xff\0", "L": b"\0\2\0\2ab\0\3abc", "0": b"\0\0",
          "X": b"\0\2\0\1a", "Y": b"\0\1\0\0", "Z": b"\0\1\0\1a\0", "_": b"", **{x: b"\0\1\0\1" + x.encode() for x in "abcd"}}


def run_texts(sources):
    for told, text in sources.constant(TEXTS + "runs.rt", "RUNS"):
        run = run_told(told["nodes"], told["faulty"], 2, told["liars"], told["history"], VALUES.__getitem__)
        yield f"the run {told['history']}", text, ledgers.run_text(run, 32, told["ends"].split(" "), told["status"])


def soak_texts(sources):
    for history, status, text in sources.constant(TEXTS + "soaks.rt", "SOAKS"):
        run = run_told(4, 1, 2, [3], history, VALUES.__getitem__)
        yield f"the soak {history}", text, ledgers.soak_text(run, 2**64 - 1, 32, 16, 3, status)


def full_texts(sources):
    """Sixteen batches of 64 transactions in each of 32 epochs, and a second list of the last one."""
    text = sources.text(TEXTS + "full.rt")
    posts = []
    for epoch in range(32):
        items = tuple((node, votes.batch([bytes([epoch, node, t]) for t in range(64)])) for node in range(16))
        posts.append((0, 16, votes.spelled(votes.vote("Closed", epoch, list=items))))
    for more in ([], [(0, 16, sources.constant(TEXTS + "full.rt", "MORE"))]):
        made = ledgers.run_text(ledgers.Run(16, 5, 2, [], posts + more), 32, [], 4).encode()
        numbers = f"{len(made):_}, {codes.fnv64(made):_}"
        yield f"the length and the hash of a full ledger, and {len(more)} list more", True, numbers in text


def trace_texts(sources):
    path = TEXTS + "traces.rt"
    for name in ("ONE_NODE", "ADDRESSES"):
        text = sources.constant(path, name + "_TEXT")
        yield f"the trace {name}", text, ledgers.trace_text(text.split("\n")[0], sources.constant(path, name))
    text = sources.constant(TEXTS + "rows.rt", "TEXT")
    yield "the trace of 23 posts", text, ledgers.trace_text(text.split("\n")[0], sources.constant(TEXTS + "rows.rt", "POSTS"))


# ---- observers

def heard_run(history):
    return run_told(4, 1, 2, [3], history, VALUES.__getitem__)


def observed_posts(sources):
    for history, letters, epochs in sources.constant(TEXTS + "observers.rt", "HEARD"):
        observer = ledgers.Observer(heard_run(history))
        made = "".join("c" if observer.hear(post) else "n" for post in observer.run.posts)
        yield f"what is counted of {history}", (letters, epochs), (made, len(observer.lists()))


def observers_of(run, drops):
    """The observers beside the nodes of a run: each hears all posts but those that a rule drops on their way to its node."""
    found = []
    for node in range(run.n):
        observer = ledgers.Observer(run)
        for number, post in enumerate(run.posts):
            is_dropped = post[0] != node and any(
                source in (None, post[0]) and to in (None, node) and number % every == at for source, to, every, at in drops)
            if not is_dropped:
                observer.hear(post)
        found.append(observer)
    return found


def observed_texts(sources):
    text = sources.text(TEXTS + "observing.rt") + sources.text(TEXTS + "observers.rt")
    for history, drops, wanted in rust_values.constant(text, "OBSERVED"):
        for node, observer in enumerate(observers_of(heard_run(history), drops)):
            lines = [str(len(observer.lists())), *ledgers.ledger_lines(observer.lists()), ""]
            yield f"the text of observer {node} of {history}", wanted[node], "\n".join(lines)


def agreeing_observers(sources):
    for wanted, history, drops in sources.constant(TEXTS + "observers.rt", "AGREEING"):
        run = heard_run(history)
        observers = observers_of(run, drops)
        taken = [[vote["list"] for vote in observer.lists()] for observer in observers]
        others = taken + [run.lists(node) for node in run.correct]
        follow = all(a[:len(b)] == b[:len(a)] for a in taken for b in others)
        are_enough = all(len(items) >= run.n - run.f for ledger in taken for items in ledger)
        have_all = all(observer.has_what_it_must() for observer in observers)
        yield f"whether the observers of {history} agree", wanted, follow and are_enough and have_all


# ---- a history of two nodes, post by post

POST = re.compile(r"post (\d+) from (\d+) actor (\d+) to (?:node (\d+)|(\w+)) (\S+)")


def posts_of(text):
    """The posts of the lines of a text, each with its number."""
    for number, sender, actor, node, to, data in POST.findall(text):
        goes = ("To::Node", int(node)) if node else f"To::{to.capitalize()}"
        yield int(number), (int(sender), int(actor), goes, bytes.fromhex(data.replace("-", "")))


def posts_that_may_follow(sources):
    bent = {}
    for count, line in posts_of(sources.text("tools/histories/two_nodes.bent")):
        bent.setdefault(count, []).append(line)
    history = History(2, 0, 1, 32, 1, 2**64 - 1)
    posts = [post for _, post in posts_of(sources.text("tools/histories/two_nodes.trace"))]
    for number, post in enumerate([*posts, None]):
        for line in bent.pop(number, []):
            yield f"whether {line[3][:8].hex()} may follow {number} posts", False, history.may_follow(line)
        if post is not None:
            yield f"whether post {number} may follow", True, history.may_follow(post)
            history.posts.append(post)
    for number, post in enumerate(history.posts):
        yield f"whether post {number} may come again", True, history.may_follow(post)
    yield "the bent posts behind more posts than there are", {}, bent


CHECKS = [accusations, accusation_texts, answers_on_ledgers, observed_posts, observed_texts, agreeing_observers, run_texts,
          soak_texts, full_texts, trace_texts, posts_that_may_follow]
