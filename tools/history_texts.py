"""Texts of histories, most of which break the form or a rule in one place, and what `audit` comes to for each: text, status,
output and error output. All were worked out by hand, but for the history of two nodes and the posts that may not follow it, which
stand in tools/histories. `tools/oracles/run posts_that_may_follow` finds by the rules which posts may follow."""
import os

TWO_NODES = os.path.join(os.path.dirname(os.path.realpath(__file__)), "histories", "two_nodes")
NUMBERS = {"nodes": 1, "faulty": 0, "version": 1, "epochs": 1, "rounds": 3, "batch": 64, "seed": 0, "liars": 0}
FOUR = {"nodes": 4, "faulty": 1}
# The most bytes that a text may have.
LONGEST = 67108864

# What one node may not post first: that it wants no more lanes.
NO_MORE = "from 0 actor 1 to home 1100\n"
EMPTY = "from 0 actor 1 to book -\n"
PROPOSE = "from 0 actor 1 to home 100000000006000100026869\n"

# Numbers of the first line that no run has, or that are spelled otherwise. A liar is a bit of the last number.
BROKEN_NUMBERS = (
    {"nodes": "01"}, {"nodes": "+1"}, {"nodes": ""}, {"nodes": 0}, {"nodes": 17}, {"nodes": 257}, {"nodes": 3, "faulty": 1},
    {"faulty": "00"}, {"version": 3}, {"epochs": 33}, {"rounds": 0}, {"batch": 65}, {"seed": 2**64}, {"liars": 1},
    {**FOUR, "liars": 16}, {**FOUR, "liars": 65536}, {"liars": "0 "}, {"liars": "0\r"},
)

# What stands behind the number of a post, where the line is one and where it is none.
LINES = (NO_MORE, "from 255 actor 255 to node 255 -\n")
BROKEN_LINES = (
    "from 00 actor 1 to home 1100\n", "from -1 actor 1 to home 1100\n", "from 256 actor 1 to home 1100\n",
    "from 0 actor 256 to home 1100\n", "from 0 actor 18446744073709551617 to home 1100\n", "from 0 actor 1 to node 256 1100\n",
    "from 0 actor 1 to node 07 1100\n", "from 0 actor 1 to node 1100\n", "from 0 actor 1 to desk 1100\n",
    "from 0 actor 1 to home  1100\n", "from 0 actor 1 to home 1100 \n", "from 0 actor 1 to home 110\n",
    "from 0 actor 1 to home 1A\n", "from 0 actor 1 to home 1g\n", "from 0 actor 1 to home \n", "from 0 actor 1 to home --\n",
    "from 0 actor 1 to home 1100", "from 0 actor 1 to home 1100\r\n",
)

# What stands behind the line of the one post, and the line that is told to break the form.
BROKEN_ENDS = (
    ("", 3), ("end 1", 3), ("end 0\n", 3), ("end 2\n", 3), ("end 01\n", 3), ("end 1 \n", 3), ("End 1\n", 3),
    (f"post 1 {NO_MORE}", 4), ("end 1\n\n", 4), ("end 1\nend 1\n", 4), ("end 1\n ", 4), ("end 1\nend 1", 4),
)


def first_line(**numbers):
    """The first line of a text with these numbers."""
    return "trace " + " ".join(f"{name} {number}" for name, number in {**NUMBERS, **numbers}.items()) + "\n"


def legal(text, posts):
    return text, 0, f"legal {posts}\n", ""


def illegal(text, post):
    return text, 8, f"illegal {post}\n", ""


def refused(text, line):
    return text, 3, "", f"refused 20 NotATrace line={line}\n"


def first_lines():
    """First lines, each before the end of no posts."""
    for numbers in ({}, {**FOUR, "liars": 8}):
        yield legal(first_line(**numbers) + "end 0\n", 0)
    whole = first_line()
    others = ("", "\n", f" {whole}", f"T{whole[1:]}", whole.replace("epochs 1 rounds 3", "rounds 3 epochs 1"), whole[:-1])
    for broken in (*(first_line(**numbers) for numbers in BROKEN_NUMBERS), *others):
        yield refused(f"{broken}end 0\n", 1)


def with_line(place, line):
    """The text of three posts with this line in the place of one of them."""
    posts = [f"post {number} {EMPTY}" for number in range(3)]
    return first_line() + "".join([*posts[:place], line, *posts[place + 1:]]) + "end 3\n"


def lines_of_posts():
    """Lines of posts at the first, the second and the third place. No bytes are no vote, so none of these histories is legal."""
    for place in range(3):
        for line in LINES:
            yield illegal(with_line(place, f"post {place} {line}"), 0)
        for line in BROKEN_LINES:
            yield refused(with_line(place, f"post {place} {line}"), place + 2)
        # It is missing or empty, or its number is another, or is spelled otherwise.
        for line in ("", "\n"):
            yield refused(with_line(place, line), place + 2)
        for number in {"0", "1", "2", "3", "00", "01", "02"} - {str(place)}:
            yield refused(with_line(place, f"post {number} {NO_MORE}"), place + 2)
        # It ends the text too soon, so the line behind it is the broken one.
        yield refused(with_line(place, f"end {place}\n"), place + 3)


def last_lines():
    """What stands behind the first line, or behind one post."""
    front = f"{first_line()}post 0 {NO_MORE}"
    yield illegal(f"{front}end 1\n", 0)
    for end, line in BROKEN_ENDS:
        yield refused(front + end, line)
    yield refused(first_line(), 2)


def two_posts():
    """A proposal may be said again, and nobody may want no more lanes behind it."""
    front = f"{first_line()}post 0 {PROPOSE}"
    yield legal(f"{front}post 1 {PROPOSE}end 2\n", 2)
    yield illegal(f"{front}post 1 {NO_MORE}end 2\n", 1)


def lines_of(path):
    """The lines of a file, but for those that begin with #."""
    with open(path, encoding="ascii") as file:
        return [line for line in file if not line.startswith("#")]


def two_nodes():
    """A whole history, the same with each post again, and a post that may not follow behind so many of its posts."""
    first, *posts, end = lines_of(f"{TWO_NODES}.trace")
    yield legal(first + "".join(posts) + end, len(posts))
    again = [line.replace(f"post {number} ", f"post {number + len(posts)} ") for number, line in enumerate(posts)]
    yield legal(first + "".join(posts + again) + f"end {2 * len(posts)}\n", 2 * len(posts))
    for line in lines_of(f"{TWO_NODES}.bent"):
        place = int(line.split()[1])
        yield illegal(first + "".join(posts[:place]) + line + f"end {place + 1}\n", place)


def beside_a_liar():
    """A liar says what it likes, and no other node does."""
    first = first_line(**FOUR, rounds=1, batch=1, seed=5, liars=8)
    lies = "post 0 from 3 actor 9 to all ff\npost 1 from 3 actor 0 to node 2 03\n"
    yield illegal(f"{first}{lies}post 2 from 2 actor 0 to all ff\nend 3\n", 2)


def rows():
    """All of these texts."""
    for part in (first_lines, lines_of_posts, last_lines, two_posts, two_nodes, beside_a_liar):
        yield from part()


def one_lie(length):
    """The text of one post of a liar, which is so long."""
    front, end = first_line(**FOUR, liars=8) + "post 0 from 3 actor 0 to book ", "\nend 1\n"
    return front.ljust(length - len(end), "0") + end


def longest():
    """Texts as long as one may be, and longer ones, of which one byte too many is taken."""
    too_long = (3, "", "refused 21 TooLongTrace\n")
    yield *refused("\n" * LONGEST, 1), LONGEST
    yield "\n" * (LONGEST + 3), *too_long, LONGEST + 1
    yield *legal(one_lie(LONGEST), 1), LONGEST
    yield one_lie(LONGEST + 1), *too_long, LONGEST + 1
