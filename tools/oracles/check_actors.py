"""What lanes, agreements and desks cast. Each check yields a place, what the test wants, and what is made here."""
import ast

import codes
import coins
import rust_values
import trees
import votes
from desk_rules import Desk
from lane_rules import Agreement, Lane, Numbers

LANES = "crates/lane_cases/src/"
DESKS = "crates/epoch_cases/src/"
DISKS = "tools/hostile_rows/disks.py"
CORRECT, LIAR, SEED, EPOCH, LANE, ROUNDS = 3, 3, 7, 1, 2, 3


# ---- agreements of three correct nodes and a liar that says both bits and shows false shares

def letters_of(vote, share):
    letter, r, value = vote
    return f"{letter}{r % 10}{share(r) % 10 if letter == 'S' else value}"


class World:
    """A run of one agreement, by inputs that are the bits of a number, and an order: 'first', 'last', or a number that draws."""

    def __init__(self, version, split, order):
        self.version, self.order, self.envelopes, self.lied, self.shown = version, order, [], set(), set()
        deal = coins.Deal(SEED, CORRECT + 1, 1, 2, ROUNDS)
        numbers = Numbers(CORRECT + 1, 1, ROUNDS, version, [deal.coin(EPOCH, LANE, r) for r in range(ROUNDS)])
        self.deal, self.nodes = deal, [Agreement(numbers) for _ in range(CORRECT)]
        self.fronts = [set() for _ in range(CORRECT)]
        for number in range(CORRECT):
            self.say(number, self.nodes[number].input(split >> number & 1))
        while self.envelopes:
            node, vote, to = self.envelopes.pop(self.next())
            self.say(to, self.nodes[to].hear(node, vote))

    def next(self):
        if isinstance(self.order, str):
            return 0 if self.order == "first" else len(self.envelopes) - 1
        self.order = (self.order * 6364136223846793005 + 1442695040888963407) % 2**64
        return (self.order >> 33) % len(self.envelopes)

    def send(self, node, vote):
        self.envelopes.extend((node, vote, to) for to in range(CORRECT))

    def lies(self, r):
        yield from ((letter, r, b) for letter in "BA" for b in (0, 1))
        if self.version == 2:
            yield from (("C", r, bits) for bits in (1, 2, 3))
        yield "S", r, False

    def say(self, node, cast):
        self.fronts[node].add(len(self.nodes[node].own))
        for vote in cast:
            letter, r, _ = vote
            if letter in "BACS":
                self.send(node, vote)
            if letter == "B" and r not in self.lied:
                self.lied.add(r)
                for lie in self.lies(r):
                    self.send(LIAR, lie)
            if letter == "S" and r not in self.shown:
                self.shown.add(r)
                self.send(LIAR, ("S", r, False))

    def text(self, number):
        share = lambda r: self.deal.share(EPOCH, LANE, r, number)
        return "".join(letters_of(vote, share) for vote in self.nodes[number].own)

    def decided(self):
        return "".join(node.decided() for node in self.nodes)


def split_row(version, split, orders):
    """What one row of the table tells, made anew."""
    first, last = (World(version, split, order).decided() for order in ("first", "last"))
    found, total = dict.fromkeys("01-", 0), codes.fnv64(b"")
    for k in range(orders):
        world = World(version, split, 8 * k + split)
        for number, bit in enumerate(world.decided()):
            found[bit] += 1
            total = codes.fnv64(world.text(number).encode(), total)
    return first, last, list(found.values()), total


def splits_of(sources, version, splits):
    orders = sources.constant(LANES + "splits.rt", "DRAWN")
    wanted = {row[:2]: row[2:] for row in sources.constant(LANES + "splits.rt", "ROWS")}
    for split in splits:
        yield f"version {version}, split {split}", wanted.get((version, split)), split_row(version, split, orders)


# in four parts, which run side by side, as they take most of the time of all checks

def splits_1_low(sources):
    yield from splits_of(sources, 1, range(4))


def splits_1_high(sources):
    yield from splits_of(sources, 1, range(4, 8))


def splits_2_low(sources):
    yield from splits_of(sources, 2, range(4))


def splits_2_high(sources):
    yield "the number of rows", 16, len(sources.constant(LANES + "splits.rt", "ROWS"))
    yield from splits_of(sources, 2, range(4, 8))


def fronts(sources):
    for version, counts in sources.constant(LANES + "again.rt", "FRONTS"):
        made = [sum(len(found - {0}) for found in World(version, split, split).fronts) for split in range(8)]
        yield f"fronts under version {version}", counts, made


def alone(sources):
    for version, is_one, wanted in sources.constant(LANES + "alone.rt", "ROWS"):
        deal = coins.Deal(0, 1, 0, 1, 3)
        node = Agreement(Numbers(1, 0, 3, version, [deal.coin(0, 0, r) for r in range(3)]))
        waiting = node.input(int(is_one))
        while waiting:
            vote = waiting.pop(0)
            if vote[0] in "BACS":
                waiting += node.hear(0, vote)
        made = "".join(letters_of(vote, lambda r: deal.share(0, 0, r, 0)) for vote in node.own)
        yield f"a node alone, version {version}, input {is_one}", wanted, made


# ---- lanes of correct nodes, in which each vote is heard by all before the next

def cast_by_lanes(n, f, epochs, rounds, seed, version, lane):
    """The text of what each node casts in each epoch."""
    deal, lanes = coins.Deal(seed, n, f, epochs, rounds), {}
    for epoch in range(epochs):
        numbers = Numbers(n, f, rounds, version, [deal.coin(epoch, lane, r) for r in range(rounds)])
        lanes.update({(node, epoch): Lane(numbers, node, node == lane) for node in range(n)})
    posts = [(lane, epoch, ("p", 0, 0)) for epoch in reversed(range(epochs))]
    for sender, epoch, vote in posts:
        for node in range(n):
            is_for = {"p": node == sender, "V": node == vote[1]}.get(vote[0], vote[0] in "ORBACS")
            if is_for:
                posts += [(node, epoch, made) for made in lanes[node, epoch].hear(sender, vote)]
    return {(node, epoch): "".join(letters_of(vote, lambda r: deal.share(epoch, lane, r, node)) for vote in found.own)
            for (node, epoch), found in lanes.items()}


def lanes(sources):
    texts = [cast_by_lanes(*run) for run in sources.constant(LANES + "lanes.rt", "RUNS")]
    for run, node, epoch, wanted in sources.constant(LANES + "lanes.rt", "WANTED"):
        yield f"run {run}, node {node}, epoch {epoch}", wanted, texts[run][node, epoch]


# ---- desks

def value_of(letters):
    return b"\xff" if letters == "?" else votes.batch([letter.encode() for letter in letters])


def letters_in(value):
    return "?" if len(value) == 1 else "".join(chr(letter) for tx in votes.transactions(value) for letter in tx)


def told(made):
    """Votes of a desk as a text, or a dot for none."""
    def one(kind, epoch, value):
        if kind == "P":
            return f"P{epoch}{letters_in(value)}"
        return f"{kind}{epoch}" + "".join(f"{lane}{letters_in(item)}" for lane, item in value)
    return "+".join(one(*vote) for vote in made) or "."


def cast_before(desk, text):
    """Takes in the votes that a text tells as cast."""
    for part in text.split("+") if text else []:
        kind, epoch, rest = part[0], int(part[1]), part[2:]
        items, letters = [], rest
        while kind == "C" and letters:
            size = next((i for i in range(1, len(letters)) if letters[i].isdigit()), len(letters))
            items.append((int(letters[0]), value_of(letters[1:size])))
            letters = letters[size:]
        desk.own[kind, epoch] = value_of(rest) if kind == "P" else tuple(items)


def desks(sources):
    for case in sources.constant(DESKS + "cases.rt", "CASES"):
        submitted = [letter.encode() for letter in case["submitted"]]
        desk = Desk(case["nodes"], case["faulty"], 3, case["batch"], submitted)
        cast_before(desk, case["own"])
        answers = [told(desk.settle())]
        for word in case["script"].split(" "):
            lane, epoch = int(word[1]), int(word[2])
            if epoch >= 3:
                answers.append(".")
            elif word[0] == "=":
                answers.append(told(desk.hear(lane, epoch, delivered=value_of(word[3:]))))
            else:
                answers.append(told(desk.hear(lane, epoch, decided=int(word[0] == "+"))))
        yield f"the run {case['script']}", case["wanted"], " ".join(answers)


def subsets(sources):
    for n, f, is_cast, script, wanted, listed in sources.constant(DESKS + "subsets.rt", "CASES"):
        desk, text = Desk(n, f, 1, 1, []), ""
        desk.own["P", 0] = b""
        if is_cast:
            desk.own["N", 0] = ()
        for place, letter in enumerate(script):
            if letter.isdigit():
                made = desk.hear(int(letter), 0, delivered=bytes([ord("a") + place]))
            else:
                made = desk.hear(ord(letter.lower()) - ord("a"), 0, decided=int(letter.isupper()))
            is_due, is_closed = any(vote[0] == "N" for vote in made), ("C", 0) in desk.own
            text += "b" if is_due and is_closed else "n" if is_due else "c" if is_closed else "."
        made = "".join(f"{lane}{value.decode()}" for lane, value in desk.own["C", 0])
        yield f"the subset {script}", (wanted, listed), (text, made)


# ---- a node that is alone, with its lane, its desk and their journals

def run_of_one(epochs, rounds, seed):
    """How many votes and entries a lane and a desk write, where each post is heard before the next."""
    deal = coins.Deal(seed, 1, 0, epochs, rounds)
    lanes = [Lane(Numbers(1, 0, rounds, 1, [deal.coin(e, 0, r) for r in range(rounds)]), 0, True) for e in range(epochs)]
    desk, counts, posts = Desk(1, 0, epochs, 64, []), {"lane": [0, 0], "desk": [0, 0]}, []

    def write(actor, made):
        counts[actor][0] += len(made)
        counts[actor][1] += bool(made)
        posts.extend((actor, vote) for vote in made)

    write("desk", desk.settle())
    for actor, (letter, at, value) in posts:
        if actor == "desk" and letter in "PN":
            made = lanes[at].hear(0, ("p" if letter == "P" else "n", 0, 0))
            write("lane", [(vote[0], at, vote) for vote in made])
        elif actor == "lane" and letter in "LD":
            heard = {"delivered": votes.batch([])} if letter == "L" else {"decided": value[2]}
            write("desk", desk.hear(0, at, **heard))
        elif actor == "lane" and letter in "VORBACS":
            write("lane", [(vote[0], at, vote) for vote in lanes[at].hear(0, value)])
    return counts


def calls_of(entries):
    """The calls of a disk: 6 open a journal, 4 write an entry, and 9 fold 64 entries into one before the next."""
    kept, calls, folds = 0, 6, []
    for _ in range(entries):
        if kept == 64:
            folds.append((calls + 1, calls + 9))
            kept, calls = 1, calls + 9
        kept, calls = kept + 1, calls + 4
    return calls, folds


def python_value(text, name):
    """The value of a constant of a source in Python."""
    for part in ast.parse(text).body:
        if isinstance(part, ast.Assign) and isinstance(part.targets[0], ast.Name) and part.targets[0].id == name:
            return ast.literal_eval(part.value)
    raise rust_values.Unreadable(f"there is no constant {name}")


def journals_of_one(sources):
    source = sources.text(DISKS)
    text, numbers = source.split('"""')[1].replace("\n", " "), python_value(source, "ALONE")
    counts = run_of_one(numbers["epochs"], numbers["rounds"], numbers["seed"])
    (lane_votes, lane_entries), (desk_votes, desk_entries) = counts["lane"], counts["desk"]
    calls, folds = calls_of(lane_entries)
    desk_calls = calls_of(desk_entries)[0]
    told_here = (f"its lane casts {lane_votes} votes, in {lane_entries} entries of its journal, and its desk {desk_votes} votes, "
                 f"in {desk_entries} entries.")
    yield "what is said of votes and entries", True, told_here in text
    (first, first_end), (second, second_end) = folds
    told_calls = (f"is called {calls} times, with folds at calls {first} to {first_end} and {second} to {second_end}, "
                  f"and the desk's {desk_calls} times.")
    yield "what is said of calls and folds", True, told_calls in text
    yield "how many votes there are", python_value(source, "VOTES"), (lane_votes, desk_votes)
    yield "how many calls there are", python_value(source, "TIMES"), (calls, desk_calls)
    deal = coins.Deal(0, 4, 1, 1, 32)
    told_coins = f"its coins of rounds 0 and 1 are {deal.coin(0, 1, 0)} and {deal.coin(0, 1, 1)}"
    yield "what is said of coins", True, told_coins in text


def posts_of_one(tx, rounds, deal):
    """The posts of a node alone that proposes this transaction and decides in its last round, or never: actor, address, vote."""
    value = votes.batch([tx])
    shard = votes.counted(value)
    root = trees.root_of([shard])
    yield 1, "home", votes.vote("Propose", 0, value=value)
    yield 0, "node 0", votes.vote("Val", 0, target=0, root=root, shard=shard, branch=())
    yield 0, "all", votes.vote("Echo", 0, root=root, shard=shard, branch=())
    yield 0, "all", votes.vote("Ready", 0, root=root)
    yield 0, "home", votes.vote("Delivered", 0, value=value)
    for at in range(rounds):
        yield 0, "book", votes.vote("Est", 0, round=at, bit=1)
        yield 0, "all", votes.vote("Bval", 0, round=at, bit=1)
        yield 0, "all", votes.vote("Aux", 0, round=at, bit=1)
        yield 0, "book", votes.vote("Pick", 0, round=at, set=2)
        share, salt = deal.share(0, 0, at, 0), deal.salt(0, 0, at, 0)
        yield 0, "all", votes.vote("Coin", 0, round=at, share=share, salt=salt, branch=())
    if deal.coin(0, 0, rounds - 1):
        yield 0, "home", votes.vote("Decided", 0, bit=1)
        yield 1, "home", votes.vote("NoMore", 0)
        yield 1, "book", votes.vote("Closed", 0, list=((0, value),))


def histories_of_one(sources):
    """The stored histories of the node alone whose coins are 0 up to the last round that it has."""
    for name, rounds in (("last_round", 3), ("spent_rounds", 2)):
        text = f"trace nodes 1 faulty 0 version 1 epochs 1 rounds {rounds} batch 64 seed 0 liars 0\n"
        posts = list(posts_of_one(b"hi", rounds, coins.Deal(0, 1, 0, 1, rounds)))
        for number, (actor, to, vote) in enumerate(posts):
            text += f"post {number} from 0 actor {actor} to {to} {votes.spelled(vote).hex()}\n"
        yield f"the history of {name}", sources.text(f"scenarios/{name}.trace.out"), f"{text}end {len(posts)}\n"


CHECKS = [splits_1_low, splits_1_high, splits_2_low, splits_2_high, fronts, alone, lanes, desks, subsets, journals_of_one,
          histories_of_one]
