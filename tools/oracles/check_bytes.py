"""Words, scenarios of numbers, shards, trees, coins, and the bytes that are made of them. Each check yields a place, what the
test wants, and what is made here."""
import re

import codes
import coins
import liars
import scenarios
import trees
import votes
import words

LIBRARIES = "crates/library_calls/src/"
WIRE = "crates/wire_cases/src/"


def first_words(sources):
    for row in sources.constant("crates/seed_words/src/tests.rt", "ROWS"):
        made = [words.word(row["number"], k, row["filler"]) for k in range(4)]
        yield f"the words of {row['number']}", row["words"], made


def generated_scenarios(sources):
    for row in sources.constant("crates/script_cases/src/generated.rt", "ROWS").split("\n"):
        number = int(row.split(": ")[0])
        yield f"the scenario of {number}", row, scenarios.row_of(number)


def drawn_bytes(count):
    """Bytes of the generator x := 1664525 x + 1013904223, from 2026 on: the highest of each number."""
    state, found = 2026, bytearray()
    for _ in range(count):
        state = (state * 1_664_525 + 1_013_904_223) & 0xFFFFFFFF
        found.append(state >> 24)
    return bytes(found)


def shards(sources):
    source = sources.constant(LIBRARIES + "shards.rt", "LENGTHS")
    longest = drawn_bytes(max(source))
    for n, k, _, _, wanted in sources.constant(LIBRARIES + "shards/codes.rt", "CODES"):
        total = 0x811C9DC5
        for length in source:
            for shard in codes.encode(n, k, longest[:length]):
                total = codes.fnv32(shard, total)
        yield f"the shards of k = {k} and n = {n}", wanted, total


def broadcast_roots(sources):
    text = sources.text("crates/lane_cases/src/broadcasts.rt")
    found = re.findall(r'\((\d+), (\d+)\) =>\s*b"((?:\\x[0-9a-f]{2})+)"', text)
    for n, length, root in ((int(n), int(length), root.replace("\\x", "")) for n, length, root in found):
        k = n - 2 * ((n - 1) // 3)
        value = bytes((7 * i + length) % 256 for i in range(length))
        yield f"the root of {length} bytes among {n}", root, trees.root_of(codes.encode(n, k, value)).hex()
    yield "the number of roots", 24, len(found)
    for name in ("GOOD", "BAD", "UNEVEN", "FALSE_FRAME"):
        rows = sources.constant("crates/lane_cases/src/broadcasts.rt", name)
        is_word = len({len(row) for row in rows}) == 1 and codes.codeword(4, range(2), rows[:2]) == rows
        yield f"whether {name} is a codeword", name in ("GOOD", "FALSE_FRAME"), is_word
        if is_word:
            yield f"the value of {name}", b"hi" if name == "GOOD" else b"", codes.value_of(2, rows)


def text_trees(sources):
    path = WIRE + "trees.rt"
    text = sources.constant(path, "TEXT")
    for n, root in sources.constant(path, "ROOTS"):
        yield f"the root of {n} leaves", root, trees.root_of([text[:m + 1] for m in range(n)]).hex()
    for n, m, siblings in sources.constant(path, "BRANCHES"):
        made = trees.branch_of([text[:m + 1] for m in range(n)], m)
        yield f"the branch of leaf {m} of {n}", siblings, [sibling.hex() for sibling in made]


def wire_probes(sources):
    leaves = [b"a", b"bb", b"ccc", b"dddd"]
    branch = trees.branch_of(leaves, 2)
    made = {
        "READY": votes.vote("Ready", 0, root=b"\x33" * 32),
        "COIN": votes.vote("Coin", 3, round=0, share=0xFE, salt=b"\x44" * 16, branch=branch),
        "ECHO": votes.vote("Echo", 0, root=trees.root_of(leaves), shard=leaves[2], branch=branch),
    }
    for name, vote in made.items():
        yield f"the bytes of {name}", sources.constant(WIRE + "probes.rt", name), votes.spelled(vote).hex()


def dealt_coins(sources):
    for row in sources.constant(LIBRARIES + "deals.rt", "ROWS"):
        deal, place = coins.Deal(row["seed"], row["n"], row["f"], row["epochs"], row["rounds"]), (row["e"], row["j"], row["r"])
        at = f"of the coin {place} of seed {row['seed']}"
        yield f"the root {at}", row["root"], deal.root(*place)
        yield f"the bit {at}", row["coin"], bool(deal.coin(*place))
        yield f"the shares {at}", row["shares"], bytes(deal.share(*place, m) for m in range(row["n"]))
        for m, salt in row["salts"]:
            yield f"the salt of node {m} {at}", salt, deal.salt(*place, m)
    for known, secret, wanted in sources.constant(LIBRARIES + "deals.rt", "FITS"):
        points = [0] + [3 * i + 1 for i in range(len(known))]
        yield f"the polynomial of {secret} and {known}", wanted, codes.coefficients_through(points, [secret, *known])


def shares_of_coins(sources):
    path = LIBRARIES + "shares.rt"
    deal = coins.Deal(0, 4, 1, 1, 1)
    yield "the first root of seed 0", bytes(sources.constant(path, "ROOT")), deal.root(0, 0, 0)
    yield "the first shares of seed 0", sources.constant(path, "SHARES"), [deal.share(0, 0, 0, m) for m in range(4)]
    salts = [bytes(salt) for salt in sources.constant(path, "SALTS")]
    yield "the first salts of seed 0", salts, [deal.salt(0, 0, 0, m) for m in range(4)]
    line = (1, True, sources.constant(path, "LINE"))
    for f, coin, row in [*sources.constant(path, "DEALS"), line]:
        polynomial = codes.coefficients_through(range(1, f + 2), row[:f + 1])
        made = [codes.evaluate(polynomial, m + 1) for m in range(len(row))]
        yield f"the shares of one polynomial, f = {f}", list(row), made
        yield f"the coin of these shares, f = {f}", coin, polynomial[0] & 1 == 1
    added = []
    for m, share, salt, leaf, wanted, coin in sources.constant(path, "OFFERS"):
        is_good = trees.is_branch(deal.root(0, 0, 0), 4, m, bytes([share]) + salts[salt], deal.branch(0, 0, 0, leaf))
        answer = "Offer::Known" if m in added else "Offer::Added" if is_good else "Offer::Wrong"
        added += [m] if answer == "Offer::Added" else []
        yield f"the answer to share {share} of node {m}", wanted, answer
        yield f"the coin after share {share} of node {m}", coin, bool(deal.coin(0, 0, 0)) if len(added) > 1 else None


def votes_of_libraries(sources):
    path = LIBRARIES + "tests.rt"
    rows = codes.encode(4, 2, b"hi")
    val = votes.vote("Val", 5, target=2, root=trees.root_of(rows), shard=rows[2], branch=trees.branch_of(rows, 2))
    yield "the bytes of the Val", sources.constant(path, "VAL"), votes.spelled(val)
    deal = coins.Deal(0, 4, 1, 6, 1)
    coin = votes.vote("Coin", 0, round=0, share=deal.share(0, 0, 0, 1), salt=deal.salt(0, 0, 0, 1),
                      branch=deal.branch(0, 0, 0, 1))
    yield "the bytes of the Coin", sources.constant(path, "COIN"), votes.spelled(coin)


def line_of(lies):
    return ";".join(f"{actor} {to} {data.hex()}" for actor, to, data in lies) + "\n"


def heard_lines(liar, row):
    """A line of what is said on each post of a row of the table of posts."""
    sender, actor, text = (row.split(" ") + [""])[:3]
    data = bytes.fromhex(text.rstrip("+")) + (b"\x5c" * 32 * trees.height(liar.n) if text.endswith("+") else b"")
    actors = {"each": range(liar.n), "desk": [liar.n]}.get(actor) or [int(actor)]
    for lane in actors:
        node = {"own": liar.node, "lane": lane}.get(sender)
        yield line_of(liar.hear(int(sender) if node is None else node, lane, data))


def said_by_liars(sources):
    path = LIBRARIES + "liars/said.rt"
    posts = sources.constant(path, "POSTS").rstrip("\n").split("\n")
    for row in sources.constant(path, "DIGESTS").splitlines():
        name, wanted, seat = row.split(" ")
        n, f, epochs, version, node = bytes.fromhex(seat)
        liar = liars.Liar(name, n, f, epochs, version, node)
        lines = line_of(liar.start()) + "".join(line for post in posts for line in heard_lines(liar, post))
        yield f"what {name} says in the seat {seat}", wanted, trees.digest(lines.encode()).hex()
    for row in sources.constant(path, "LINES").splitlines():
        node, name, heard, wanted = row.split(" ", 3)
        liar = liars.Liar(name, 4, 1, 1, 1, int(node))
        made = line_of(liar.start()) if heard == "0" else "".join(heard_lines(liar, posts[int(heard) - 1]))
        yield f"what {name} says at row {heard}", wanted + "\n", made


CHECKS = [first_words, generated_scenarios, shards, broadcast_roots, text_trees, wire_probes, dealt_coins, shares_of_coins,
          votes_of_libraries, said_by_liars]
