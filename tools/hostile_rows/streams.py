"""Streams that give little, fail or end early, for each word of the program.

A pipe of packets gives what one write put into it for one read, however much more there is. A socket whose other end closes
while something is unread gives what was sent to it, and then fails. A file that may not grow beyond a limit takes what fits,
and then fails.
"""
import contextlib
import fcntl
import functools
import os
import socket
import threading

from hostile_rows.calls import compare
from hostile_rows.program import Limits, tell
from hostile_rows.texts import WORDS

PIECES = (1, 2, 3, 7, 16, 4095)
READ_FAILED, WRITE_FAILED = (6, b"", b"read failed\n"), b"write failed\n"
SCENARIO = "four_nodes.json"
# What a pipe is made to hold, in bytes, and the number of the call that does this on Linux.
PAGE = 4096
SET_PIPE_SIZE = 1031


def ask_in_pieces(bench, words, given, size):
    """How the program ends that gets so many bytes at each read."""
    reader, writer = os.pipe2(os.O_DIRECT)

    def write():
        # The program may end before it has read all.
        with contextlib.suppress(BrokenPipeError):
            for place in range(0, len(given), size):
                os.write(writer, given[place:place + size])
        os.close(writer)

    thread = threading.Thread(target=write)
    thread.start()
    try:
        return bench.ask(words, stdin=reader, close_fds=True)
    finally:
        os.close(reader)
        thread.join()


def check_pieces(bench, words, given, size):
    want = bench.ask(words, given)
    if want.status != 0 or not want.out:
        return f"in one piece: {tell(want)}"
    return compare(ask_in_pieces(bench, words, given, size), *want)


def ask_failing(bench, words, given):
    """How the program ends where the read behind these bytes fails. They are few enough for the socket to hold them."""
    ours, theirs = socket.socketpair(socket.AF_UNIX, socket.SOCK_STREAM)
    with theirs:
        # What is unread where an end is closed makes the other end's reads fail.
        theirs.send(b"?")
        ours.sendall(given)
        ours.close()
        return bench.ask(words, stdin=theirs.fileno())


def check_failing_read(bench, words, given):
    """The read behind these bytes fails."""
    return compare(ask_failing(bench, words, given), *READ_FAILED)


def check_no_read(bench, words, path):
    """Standard input that can't be read at all. `soak` reads none, and ends well."""
    file = os.open(path, os.O_WRONLY if path == os.devnull else os.O_RDONLY)
    try:
        answer = bench.ask(words, stdin=file)
    finally:
        os.close(file)
    if words[0] == "soak":
        return compare(answer, *bench.ask(words))
    return compare(answer, *READ_FAILED)


def check_cut(bench, words, given, count):
    """Input that ends early: no scenario, and a history whose form breaks in the line that is not whole."""
    line = given[:count].count(b"\n") + 1
    told = f"refused 20 NotATrace line={line}\n" if words[0] == "audit" else "refused 2 NotJson\n"
    return compare(bench.ask(words, given[:count]), 3, b"", told.encode())


def check_full(bench, words, given):
    """Standard output, and then error output too, that takes nothing."""
    with open("/dev/full", "wb") as full:
        answer = bench.ask(words, given, stdout=full)
        silent = bench.ask(words, given, stdout=full, stderr=full)
    return compare(answer, 7, b"", WRITE_FAILED) or compare(silent, 7, b"")


def check_full_error(bench, words, given):
    """A line of a refusal that is not taken."""
    with open("/dev/full", "wb") as full:
        return compare(bench.ask(words, given, stderr=full), 7, b"")


def check_failing_write(bench, words, given, count):
    """A file that takes so many bytes of the text: just these stand in it."""
    whole, path = bench.ask(words, given).out, f"{bench.scratch}/{os.getpid()}.out"
    count = min(count, len(whole) - 1)
    with open(path, "wb") as file:
        answer = bench.ask(words, given, Limits(written=count), stdout=file)
    with open(path, "rb") as file:
        held = file.read()
    if held != whole[:count]:
        return f"a file that takes {count} bytes has {len(held)} bytes, which are not those"
    return compare(answer, 7, b"", WRITE_FAILED)


def check_closed_reader(bench, words, given, count, told=WRITE_FAILED):
    """A reader that takes so many bytes, and closes the pipe. What it got is a beginning of the text, and this is told."""
    whole, got = bench.ask(words, given).out, bytearray()
    reader, writer = os.pipe()
    fcntl.fcntl(writer, SET_PIPE_SIZE, PAGE)

    def read():
        while len(got) < count and (piece := os.read(reader, count - len(got))):
            got.extend(piece)
        os.close(reader)

    thread = threading.Thread(target=read)
    thread.start()
    if not count:
        # So that nothing is taken.
        thread.join()
    answer = bench.ask(words, given, stdout=writer)
    os.close(writer)
    thread.join()
    if got != whole[:count]:
        return f"a reader of {count} bytes has read {len(got)} bytes, which are not those"
    # What the pipe can hold may have been taken before it was closed.
    if count and len(whole) <= count + PAGE and answer.status == 0:
        return compare(answer, 0, b"")
    return compare(answer, 7, b"", told)


def line_ends(text):
    """Where the lines of a text begin, one byte further, and one byte before each end."""
    ends = [place for place, byte in enumerate(text) if byte == 10]
    return sorted({0, 1, *ends, *(end + 1 for end in ends[:-1]), *(end - 1 for end in ends)})


def few(places, most=40):
    """Some of these places, spread over all of them."""
    return places[:: max(1, len(places) // most)]


def reading_cases(bench, words, given):
    name = words[0]
    whole = {size for size in range(len(given) - 1, len(given) + 2) if size <= PAGE}
    for size in sorted({*PIECES, *whole}):
        yield f"{name}, {size} bytes at a read", functools.partial(check_pieces, bench, words, given, size)
    for count in sorted({0, 1, 100, len(given) // 2, len(given)}):
        call = functools.partial(check_failing_read, bench, words, given[:count])
        yield f"{name}, a read that fails behind {count} bytes", call
    # A scenario is whole without the end of its last line.
    last = len(given) - (1 if name == "audit" else 2)
    for count in [*few(range(last)), last]:
        yield f"{name}, input that ends behind {count} bytes", functools.partial(check_cut, bench, words, given, count)


def writing_cases(bench, words, given):
    name, whole = words[0], bench.ask(words, given).out
    yield f"{name}, full output", functools.partial(check_full, bench, words, given)
    for count in few(line_ends(whole)):
        call = functools.partial(check_failing_write, bench, words, given, count)
        yield f"{name}, a write that fails behind {count} bytes", call
    for count in (0, 1, 100, len(whole) - 1):
        yield f"{name}, a reader of {count} bytes", functools.partial(check_closed_reader, bench, words, given, count)


def cases(bench):
    """Reading and writing for each word, and lines of refusals."""
    given = bench.scenario(SCENARIO)
    commands = [([word], given) for word in WORDS] + [(["audit"], bench.ask(["trace"], given).out), (["soak", "1"], b"")]
    for words, text in commands:
        if words[0] != "soak":
            yield from reading_cases(bench, words, text)
        for path in ("/", os.devnull):
            yield f"{words[0]}, {path} as input", functools.partial(check_no_read, bench, words, path)
        yield from writing_cases(bench, words, text)
    for words, text in ([["run"], b"[]"], [["audit"], b"\n"], [["run", "run"], b""], [[], b""]):
        yield f"{' '.join(words) or 'no words'}, full error output", functools.partial(check_full_error, bench, words, text)
