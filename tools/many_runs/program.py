"""Finds the program, runs it on several processors at once, and ends a tool with a line and a status.

The statuses are those of the program where it has one: 2 for words that ask for nothing, 3 for what is no scenario, 6 for what
cannot be read, 7 for what cannot be written. A tool that was interrupted ends with 130.
"""
import collections
import concurrent.futures
import os
import pathlib
import shutil
import signal
import subprocess
import sys
import tempfile
import threading

TOP = pathlib.Path(__file__).resolve().parents[2]
USAGE, NO_SCENARIO, NOT_READ, NOT_WRITTEN, INTERRUPTED = 2, 3, 6, 7, 130
MOST_NUMBER = 2**64 - 1

Answer = collections.namedtuple("Answer", "status out err")


class Fault(Exception):
    """Ends a tool with a status, and a line on standard error."""

    def __init__(self, status, line):
        super().__init__(line)
        self.status, self.line = status, line


# ---- processes

# The processes that run now, and whether a tool has begun to end: no further one is started then.
_running, _guard, _ending = set(), threading.Lock(), threading.Event()


def ask(words, text=b"", seconds=600, errors=subprocess.PIPE):
    """Runs a command with a text as its standard input. The status is None where it took longer than it may."""
    with _guard:
        if _ending.is_set():
            raise KeyboardInterrupt
        # A session of its own keeps an interrupt at the terminal from the command, and lets all of it be ended.
        try:
            process = subprocess.Popen(words, stdin=subprocess.PIPE, stdout=subprocess.PIPE, stderr=errors, start_new_session=True)
        except (OSError, ValueError) as fault:
            raise Fault(USAGE, f"cannot run {words[0]}: {getattr(fault, 'strerror', fault)}") from fault
        _running.add(process)
    try:
        out, err = process.communicate(text, timeout=seconds)
        return Answer(process.returncode, out, err)
    except subprocess.TimeoutExpired:
        return Answer(None, b"", b"")
    finally:
        with _guard:
            _running.discard(process)
            _end(process)


def _end(process):
    """Ends a process that this tool started, and what it has started, if it still runs. It has ten seconds to put things in order."""
    for number, seconds in ((signal.SIGTERM, 10), (signal.SIGKILL, None)):
        if process.poll() is None:
            try:
                os.killpg(process.pid, number)
                process.wait(seconds)
            except (ProcessLookupError, subprocess.TimeoutExpired):
                pass


def end_all():
    """Ends what runs, and starts nothing more."""
    with _guard:
        _ending.set()
        for process in list(_running):
            _end(process)


def in_order(jobs, items, work):
    """Yields each item with what `work` gives for it, in the order of the items; so many are worked on at once."""
    pool = concurrent.futures.ThreadPoolExecutor(jobs)
    waiting = collections.deque()
    try:
        for item in items:
            waiting.append((item, pool.submit(work, item)))
            # Results are taken in order, so a slow one holds back those behind it, but only so many.
            if len(waiting) >= 8 * jobs:
                first, future = waiting.popleft()
                yield first, future.result()
        while waiting:
            first, future = waiting.popleft()
            yield first, future.result()
    except BaseException:
        end_all()
        raise
    finally:
        pool.shutdown(wait=True, cancel_futures=True)


def find_program():
    """The program: the one that HB_LEDGER names, else the one that the script `run` would run."""
    named = os.environ.get("HB_LEDGER")
    if named:
        found = shutil.which(named)
        if found is None:
            raise Fault(USAGE, f"HB_LEDGER names {named}, which is no program that can be run")
        return os.path.abspath(found)
    # What `run` tells of a build goes to standard error as it comes.
    answer = ask([str(TOP / "run"), "--program"], seconds=None, errors=None)
    path = answer.out.decode(errors="replace").strip()
    if answer.status != 0 or not os.access(path, os.X_OK):
        raise Fault(answer.status or 1, f"./run --program names no program; its status is {answer.status}")
    return path


# ---- words, files and the end of a tool

def whole_number(word, least=0, most=MOST_NUMBER):
    """The number that a word spells in decimal digits, as the program reads it."""
    plain = word.isascii() and word.isdigit() and (word == "0" or word[0] != "0")
    if not plain or not least <= int(word[:20]) <= most or len(word) > 20:
        raise Fault(USAGE, f"{word or 'an empty word'} is no whole number from {least} to {most}")
    return int(word)


def options(words, known):
    """Parts words into a dict of options and the list of the others. `known` tells which options have a value behind them."""
    found, others, words = {}, [], list(words)
    while words:
        word = words.pop(0)
        if not word.startswith("-"):
            others.append(word)
            continue
        name, equals, value = word.partition("=")
        if name not in known:
            raise Fault(USAGE, f"unknown option {name}")
        if not known[name]:
            if equals:
                raise Fault(USAGE, f"{name} has no value")
            found[name] = True
        elif equals or words:
            found[name] = value if equals else words.pop(0)
        else:
            raise Fault(USAGE, f"{name} needs a value")
    return found, others


def jobs_of(found):
    """How many processes may run at once: all processors where no number is given."""
    try:
        processors = len(os.sched_getaffinity(0))
    except AttributeError:
        processors = os.cpu_count() or 1
    return whole_number(found["--jobs"], 1, 1024) if "--jobs" in found else processors


def say(text):
    """Writes a text to standard output, at once."""
    try:
        sys.stdout.write(text)
        sys.stdout.flush()
    except OSError as fault:
        # What is left in the buffer must not be tried once more at the end.
        os.dup2(os.open(os.devnull, os.O_WRONLY), sys.stdout.fileno())
        raise Fault(NOT_WRITTEN, "write failed") from fault


def tell(text):
    """Writes a text to standard error, where that can be."""
    try:
        sys.stderr.write(text)
        sys.stderr.flush()
    except OSError:
        os.dup2(os.open(os.devnull, os.O_WRONLY), sys.stderr.fileno())


def read_file(path):
    """The bytes of a file."""
    try:
        return pathlib.Path(path).read_bytes()
    except OSError as fault:
        raise Fault(NOT_READ, f"cannot read {path}: {fault.strerror}") from fault


def write_file(path, text):
    """Writes a file whole: it has its old contents, or none, until all of the new ones are there."""
    path = pathlib.Path(path)
    unfinished = None
    try:
        handle, unfinished = tempfile.mkstemp(prefix=f".{path.name}.", dir=path.parent)
        with open(handle, "w", encoding="utf-8", newline="\n") as file:
            file.write(text)
        os.chmod(unfinished, 0o644)
        os.replace(unfinished, path)
        unfinished = None
    except OSError as fault:
        raise Fault(NOT_WRITTEN, f"write failed: {path}: {fault.strerror}") from fault
    finally:
        if unfinished is not None:
            pathlib.Path(unfinished).unlink(missing_ok=True)


def _interrupt(_signal, _frame):
    # A second one would only disturb the end.
    signal.signal(signal.SIGINT, signal.SIG_IGN)
    signal.signal(signal.SIGTERM, signal.SIG_IGN)
    raise KeyboardInterrupt


def _answer(usage, work):
    try:
        words = sys.argv[1:]
        if words in (["--help"], ["-h"]):
            say(usage)
            return 0
        return work(words)
    finally:
        # An interrupt at the very end just ends the tool.
        signal.signal(signal.SIGINT, signal.SIG_DFL)
        signal.signal(signal.SIGTERM, signal.SIG_DFL)


def run_tool(name, usage, work):
    """Runs a tool on its words, and ends with the status that it gives. It ends with a line, and never with a traceback."""
    signal.signal(signal.SIGTERM, _interrupt)
    signal.signal(signal.SIGINT, _interrupt)
    try:
        status = _answer(usage, work)
    except Fault as fault:
        tell(f"tools/{name}: {fault.line}\n")
        status = fault.status
    except KeyboardInterrupt:
        tell(f"tools/{name}: interrupted\n")
        status = INTERRUPTED
    except MemoryError:
        tell(f"tools/{name}: no memory\n")
        status = 9
    except OSError as fault:
        tell(f"tools/{name}: {fault.strerror}{': ' + str(fault.filename) if fault.filename else ''}\n")
        status = NOT_WRITTEN
    end_all()
    sys.exit(status)
