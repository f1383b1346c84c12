"""The program hb_votes under limits, and on streams that give little, fail or end early.

The history is the one that the merge gate runs hb_votes on. Its words come from a second program, tools/oracles/vote_words.
"""
import dataclasses
import functools
import os
import subprocess
import sys

from hostile_rows import streams
from hostile_rows.calls import compare
from hostile_rows.limits import ABOVE, ABOVE_WITH_SMALL_STACK, STACKS, Least, bounds_of
from hostile_rows.program import tell
from hostile_rows.texts import Wrong

NO_MEMORY, FIRST_LINE = b"no memory\n", b"trace nodes 4 faulty 1 version 1 epochs 1 rounds 32 batch 64 seed 0 liars 8\n"
UNKNOWN = ["--all"]
FEW_POSTS, MANY_POSTS = 10, 100_000
# What is far above the least memory, in kilobytes. The last of them suffices: no history of this row has a megabyte.
FAR_ABOVE = (16384, 65536)
AMPLE = FAR_ABOVE[-1]
# The lines of this history get longer, so that memory may give out at any of them.
LONG_LINES = 12


def words_of(bench, given, options):
    """The words of a history, by the second program."""
    path = f"{bench.top}/tools/oracles/vote_words"
    made = subprocess.run([sys.executable, path, *options], input=given, stdout=subprocess.PIPE, check=False)
    if made.returncode:
        raise Wrong(f"{path} ended with status {made.returncode}")
    return made.stdout


def lines_of(text, count):
    """The first lines of a text, so many of them."""
    return b"".join(text.splitlines(keepends=True)[:count])


def of_votes(posts):
    """A history of so many posts of a liar, and its words."""
    numbers = range(posts)
    text = b"".join(b"post %d from 3 actor 0 to all 07000%d01\n" % (k, k % 10) for k in numbers)
    words = b"".join(b"post %d from 3 actor 0 to all: AUX epoch 0 round %d bit 1\n" % (k, k % 10) for k in numbers)
    return tuple(FIRST_LINE + lines + b"end %d\n" % posts for lines in (text, words))


def of_long_lines():
    """A history of posts each twice as long as the one before it, and its words."""
    posts = [(b"post %d from 3 actor 0 to all" % k, b"ff" * (64 << k)) for k in range(LONG_LINES)]
    text, words = (b"".join(b"%s\n" % form(*post) for post in posts)
                   for form in (lambda front, code: front + b" " + code, lambda front, code: front + b": no vote"))
    return tuple(FIRST_LINE + lines + b"end %d\n" % LONG_LINES for lines in (text, words))


def check_limits(bench, given, whole, limits, is_ample):
    """The whole text with status 0, or with 9 the words of a beginning, in whole lines, and the line that tells why. Where memory
    suffices it is the whole text."""
    answer = bench.ask([], given, limits())
    if answer.status != 9 or is_ample:
        return compare(answer, 0, whole)
    return compare(answer, 9, lines_of(whole, answer.out.count(b"\n")), NO_MEMORY)


def check_many(bench, least):
    """As much memory as a short history takes suffices for a long one."""
    few, few_words = of_votes(FEW_POSTS)
    for limits in map(least.limits, ABOVE):
        answer = bench.ask([], few, limits)
        if answer.status == 0:
            given, whole = of_votes(MANY_POSTS)
            return compare(answer, 0, few_words) or compare(bench.ask([], given, limits), 0, whole)
    return f"{FEW_POSTS} posts are not printed in any of these limits: {tell(answer)}"


def check_failing_read(bench, options, given, whole, count):
    """The read behind these bytes fails: the words of the lines before it are printed, but for the last line."""
    answer = streams.ask_failing(bench, options, given[:count])
    return compare(answer, 6, lines_of(whole, min(given[:count].count(b"\n"), whole.count(b"\n") - 1)), b"read failed\n")


def check_broken(bench, given, whole, count, more=b""):
    """A text that ends early, or has more behind it: all words before the line that is wrong, but for the last line."""
    given = given[:count] + more
    line = min(given.count(b"\n"), whole.count(b"\n")) + 1
    told = f"refused 20 NotATrace line={line}\n".encode()
    return compare(bench.ask([], given), 3, lines_of(whole, min(line, whole.count(b"\n")) - 1), told)


def check_no_read(bench, path):
    """Standard input that can't be read at all."""
    file = os.open(path, os.O_WRONLY if path == os.devnull else os.O_RDONLY)
    try:
        return compare(bench.ask([], stdin=file), 6, b"", b"read failed\n")
    finally:
        os.close(file)


def limit_cases(bench):
    histories = (("many", *of_votes(1000)), ("longer and longer", *of_long_lines()))
    least = Least(bench, UNKNOWN)
    amounts = [(above, None) for above in (*ABOVE, *FAR_ABOVE)] + [(None, stack) for stack in STACKS]
    for above, stack in [*amounts, *((above, 512) for above in ABOVE_WITH_SMALL_STACK)]:
        limits, is_ample = functools.partial(least.limits, above, stack), above is None or above >= AMPLE
        for name, given, whole in histories:
            call = functools.partial(check_limits, bench, given, whole, limits, is_ample)
            yield f"{name} posts in {bounds_of(above, stack)}", call
    yield f"{MANY_POSTS} posts", functools.partial(check_many, bench, least)


def reading_cases(bench, options, given, whole):
    name = " ".join(["hb_votes", *options])
    yield f"{name}, its words", lambda: compare(bench.ask(options, given), 0, whole)
    for size in streams.PIECES:
        yield f"{name}, {size} bytes at a read", functools.partial(streams.check_pieces, bench, options, given, size)
    for count in sorted({0, 1, 100, len(given) // 2, len(given) - 1, len(given)}):
        call = functools.partial(check_failing_read, bench, options, given, whole, count)
        yield f"{name}, a read that fails behind {count} bytes", call


def writing_cases(bench, options, given, whole):
    name = " ".join(["hb_votes", *options])
    yield f"{name}, full output", functools.partial(streams.check_full, bench, options, given)
    for count in streams.few(streams.line_ends(whole)):
        call = functools.partial(streams.check_failing_write, bench, options, given, count)
        yield f"{name}, a write that fails behind {count} bytes", call
    for count in (0, 1, 100, len(whole) - 1):
        call = functools.partial(streams.check_closed_reader, bench, options, given, count, told=b"")
        yield f"{name}, a reader of {count} bytes", call


def cases(bench):
    """Limits, and streams with and without `--full`."""
    bench = dataclasses.replace(bench, program=bench.votes)
    with open(f"{bench.top}/crates/hb_votes/stdin", "rb") as file:
        given = file.read()
    yield from limit_cases(bench)
    for options in (["--full"], []):
        whole = words_of(bench, given, options)
        yield from reading_cases(bench, options, given, whole)
        yield from writing_cases(bench, options, given, whole)
    for count in [*streams.few(range(len(given) - 1)), len(given) - 1]:
        yield f"input that ends behind {count} bytes", functools.partial(check_broken, bench, given, whole, count)
    for more in (b"\n", b"x", b"end 136\n"):
        yield f"{more} behind the end", functools.partial(check_broken, bench, given, whole, len(given), more)
    for path in ("/", os.devnull):
        yield f"{path} as input", functools.partial(check_no_read, bench, path)
    for options, text in ((UNKNOWN, given), ([], b"\n")):
        yield f"words {options}, full error output", functools.partial(streams.check_full_error, bench, options, text)
