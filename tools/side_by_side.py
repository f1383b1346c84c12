"""Calls a function for each of the numbers below a count, by processes side by side.

Each process is a copy of this one, has a pipe of its own, and gets its next number when it has answered. So none holds a lock
that another waits for. Those of `multiprocessing.Pool` share two: one that is ended while it answers may keep its lock, and
then its parent waits for ever.
"""
import itertools
import multiprocessing
import multiprocessing.connection
import os

CONTEXT = multiprocessing.get_context("fork")


class Gone(Exception):
    """A process ended before it had answered."""


def as_they_end(call, count, jobs=None, begin=None):
    """Yields each number with what the call answers for it, those that end first before others. What the call raises is raised
    here. So many processes are there, one for each processor where it is left out, and each calls `begin` first. They are killed
    when the caller takes no more."""
    numbers, busy = iter(range(count)), {}
    try:
        for number in itertools.islice(numbers, jobs or len(os.sched_getaffinity(0))):
            pipe, process = start(call, begin)
            busy[pipe] = process
            pipe.send(number)
        while busy:
            for pipe in multiprocessing.connection.wait(list(busy)):
                number, answer, fault = answer_of(pipe)
                if fault is not None:
                    raise fault
                following = next(numbers, None)
                pipe.send(following)
                if following is None:
                    end(pipe, busy.pop(pipe))
                yield number, answer
    finally:
        for pipe, process in busy.items():
            process.kill()
            end(pipe, process)


def in_order(call, count):
    """What the call answers for each number, in the order of the numbers."""
    answers = dict(as_they_end(call, count))
    return [answers[number] for number in range(count)]


def start(call, begin):
    """A new process, and our end of its pipe."""
    ours, theirs = CONTEXT.Pipe()
    process = CONTEXT.Process(target=work, args=(theirs, call, begin), daemon=True)
    process.start()
    theirs.close()
    return ours, process


def work(pipe, call, begin):
    """What a process does: it answers number after number, up to one that is none."""
    if begin:
        begin()
    while (number := pipe.recv()) is not None:
        try:
            told = number, call(number), None
        except Exception as fault:  # pylint: disable=broad-except
            told = number, None, fault
        pipe.send(told)


def answer_of(pipe):
    """A number, and what the call answered or raised."""
    try:
        return pipe.recv()
    except (EOFError, OSError) as fault:
        raise Gone("a process ended before it had answered") from fault


def end(pipe, process):
    """Waits for a process that ends."""
    process.join()
    pipe.close()
