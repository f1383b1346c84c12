"""Runs with workers of a user who may have 1, 2, 3, 5 or 9 threads: a worker that can't be started is run by the caller.

A limit of processes binds no user who may do everything. So where this is that user, each case runs as a user of its own, whom
nobody else is. Else the limit is counted from what the user has already. Each time a probe first tells how many threads start.
"""
import functools
import json
import os
import shutil
import threading

from hostile_rows.calls import compare, place_of_difference, post_at, read_legal
from hostile_rows.program import Limits, set_limits
from hostile_rows.texts import Wrong

ALLOWED = (1, 2, 3, 5, 9)
# Where the threads of the user are counted, other cases must not start any.
AT_ONCE = 1 if os.geteuid() else None
WORKERS = (1, 4)
FIRST_USER, USERS_OF_CASE = 60000, 20
TRIES = 5
# More threads than are ever allowed.
MOST_THREADS = 40

# Where no worker can be started the caller runs them one after another, each until its node has nothing more to do.
# A worker serves the actors of its node in turn. Each takes one post the first time, and up to 32 after that.
# So each lane first hears the proposal of its own desk, and lane i of node i sends its shards.
# Then node 0 echoes its own. Node 1 echoes in lane 0 what node 0 sent, and then its own in lane 1.
# At node 2 lane 0 echoes too, has then three echoes and is ready, before lane 1 and lane 2 echo.
# These are the first posts, up to that echo of lane 2: node, actor, and kind.
ALONE = [(node, 4, "10") for node in range(4)]
ALONE += [(0, 0, "01")] * 4 + [(0, 0, "02")]
ALONE += [(1, 1, "01")] * 4 + [(1, 0, "02"), (1, 1, "02")]
ALONE += [(2, 2, "01")] * 4 + [(2, 0, "02"), (2, 0, "03"), (2, 1, "02"), (2, 2, "02")]


def threads_of_user(user):
    """How many threads a user has."""
    count = 0
    for process in filter(str.isdigit, os.listdir("/proc")):
        try:
            if os.stat(f"/proc/{process}").st_uid == user:
                count += len(os.listdir(f"/proc/{process}/task"))
        except OSError:
            # It has ended meanwhile.
            continue
    return count


def limits_of(allowed, number):
    """Limits under which so many threads run: of a user of its own for each number of a case, where that is possible."""
    if os.geteuid():
        return Limits(processes=threads_of_user(os.geteuid()) + allowed)
    first = FIRST_USER + USERS_OF_CASE * number
    for user in range(first, first + USERS_OF_CASE):
        if not threads_of_user(user):
            return Limits(processes=allowed, user=user)
    raise Wrong(f"each user from {first} on has processes, so no limit of threads can be set for one of them")


def probe(limits):
    """How many threads a process may have under these limits, its first one too: a copy of this process tries it."""
    reader, writer = os.pipe()
    child = os.fork()
    if not child:
        try:
            set_limits(limits)
            os.write(writer, b"%d" % count_threads())
        finally:
            os._exit(0)
    os.close(writer)
    with open(reader, "rb") as told:
        found = told.read()
    os.waitpid(child, 0)
    return int(found) if found else None


def count_threads():
    """Starts threads until one is refused, and counts them with the first."""
    held = threading.Event()
    for count in range(1, MOST_THREADS):
        try:
            threading.Thread(target=held.wait, daemon=True).start()
        except RuntimeError:
            return count
    return MOST_THREADS


def limited(allowed, number):
    """Limits of which a probe has shown that they bind."""
    for _ in range(TRIES):
        limits = limits_of(allowed, number)
        found = probe(limits)
        if found == allowed:
            return limits
    raise Wrong(f"no way was found to allow {allowed} threads: a probe had {found or 'none'}")


def with_workers(given, workers):
    return json.dumps({**json.loads(given), "workers": workers}).encode()


def check(bench, allowed, workers, number):
    """A run that no schedule may change prints what it prints without a limit, and its history is legal."""
    given, want = with_workers(bench.scenario("workers.json"), workers), bench.scenario("workers.out")
    limits = limited(allowed, number)
    wrong = compare(bench.ask(["run"], given, limits), 0, want)
    if wrong:
        return f"run: {wrong}"
    read_legal(bench, given, limits=limits)
    return None


def first_posts(bench, given, number):
    """The first posts of a run with no thread but the first, each by node, actor and kind."""
    for _ in range(TRIES):
        limits = limited(1, number)
        posts = read_legal(bench, given, limits=limits)
        # Where a thread of the user has ended meanwhile, the program may have started one.
        if limits.user is not None or limits == limits_of(1, number):
            return [(node, actor, code[:2]) for node, actor, _, code in posts[: len(ALONE)]]
    raise Wrong("the threads of the user come and go, so no limit of threads can be set")


def check_alone(bench, workers, number):
    """With no thread but the first, the caller runs each worker: the order of the first posts shows it."""
    found = first_posts(bench, with_workers(bench.scenario("four_nodes.json"), workers), number)
    if found != ALONE:
        place = place_of_difference(found, ALONE)
        post = post_at(found, place)
        return f"post {place} is {post} (node, actor, kind), and {ALONE[place]} where the caller runs the workers"
    return None


def for_all(bench):
    """The same program where every user may run it."""
    folder = f"{bench.scratch}/for_all"
    os.makedirs(folder, exist_ok=True)
    for path in (bench.scratch, folder):
        os.chmod(path, 0o755)
    copy = shutil.copy(bench.program, f"{folder}/program")
    os.chmod(copy, 0o755)
    return type(bench)(copy, bench.scratch, bench.top, bench.storms, bench.environment)


def cases(bench):
    """A case for each number of threads and of workers, and those in which the order tells."""
    bench, number = for_all(bench), 0
    for allowed in ALLOWED:
        for workers in WORKERS:
            number += 1
            yield f"{workers} workers, {allowed} threads allowed", functools.partial(check, bench, allowed, workers, number)
    for workers in WORKERS:
        number += 1
        yield f"{workers} workers, run by the caller", functools.partial(check_alone, bench, workers, number)
