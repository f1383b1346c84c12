"""Runs the program with its words and its input, under limits and on chosen processors."""
import collections
import ctypes
import dataclasses
import functools
import os
import resource
import signal
import subprocess

# The longest run takes some 15 seconds of a processor. One that takes longer than this is told as one that does not end.
SECONDS = 300
LIBC = ctypes.CDLL(None)
SET_PARENT_DEATH_SIGNAL = 1
NO_RANDOM_ADDRESSES = 0x0040000

# The status is below 0 where a signal ended the program, and a text where it did not start or did not end.
Answer = collections.namedtuple("Answer", "status out err")


@dataclasses.dataclass(frozen=True)
class Limits:
    """What the program may use. None is what this process itself may use."""
    memory: int = None  # kilobytes of address space
    stack: int = None  # kilobytes
    written: int = None  # bytes of a file
    processes: int = None  # of the user
    user: int = None
    processors: frozenset = None


@dataclasses.dataclass(frozen=True)
class Bench:
    """The program, the environment that it gets, a folder for files, how many storms are wanted, and the program hb_votes."""
    program: str
    scratch: str
    top: str
    storms: int = 30
    environment: dict = None
    votes: str = None

    def ask(self, words, given=b"", limits=Limits(), **streams):
        """How the program ends with these words. Streams are those of `subprocess.run`."""
        if "stdin" not in streams:
            streams["input"] = given
        how = {"stdout": subprocess.PIPE, "stderr": subprocess.PIPE, "timeout": SECONDS, "env": self.environment, **streams}
        try:
            ran = subprocess.run([self.program, *words], preexec_fn=functools.partial(set_limits, limits), **how)
        except subprocess.TimeoutExpired:
            return Answer(f"none after {how['timeout']} seconds", b"", b"")
        except (OSError, subprocess.SubprocessError) as fault:
            return Answer(f"none, since it does not start ({fault})", b"", b"")
        return Answer(ran.returncode, ran.stdout or b"", ran.stderr or b"")

    def scenario(self, name):
        """The bytes of a scenario that ships."""
        with open(f"{self.top}/scenarios/{name}", "rb") as file:
            return file.read()


def set_limits(limits):
    """Puts limits on this process, which is a child, and most often becomes the program next."""
    if limits.processors is not None:
        os.sched_setaffinity(0, limits.processors)
    if limits.user is not None:
        os.setgroups([])
        os.setgid(limits.user)
        os.setuid(limits.user)
    if limits.written is not None:
        signal.signal(signal.SIGXFSZ, signal.SIG_IGN)
    _set(resource.RLIMIT_CORE, 0)
    _set(resource.RLIMIT_NPROC, limits.processes)
    _set(resource.RLIMIT_FSIZE, limits.written)
    end_with_parent()
    _set(resource.RLIMIT_STACK, limits.stack and limits.stack * 1024)
    if limits.memory is not None:
        # With addresses that are not drawn, the same limit has the same effect each time.
        LIBC.personality(NO_RANDOM_ADDRESSES)
        _set(resource.RLIMIT_AS, limits.memory * 1024)


def end_with_parent():
    """Lets this process be killed when its parent ends."""
    LIBC.prctl(SET_PARENT_DEATH_SIGNAL, int(signal.SIGKILL), 0, 0, 0)


def _set(kind, amount):
    """Sets a limit, or the hardest that stands already."""
    if amount is None:
        return
    hard = resource.getrlimit(kind)[1]
    if hard != resource.RLIM_INFINITY:
        amount = min(amount, hard)
    resource.setrlimit(kind, (amount, amount))


def tell(answer):
    """How a run ended, in a few words."""
    err = " ".join(answer.err.decode(errors="replace").split())[:80]
    return f"status {answer.status}, {len(answer.out)} bytes of output, error output '{err}'"
