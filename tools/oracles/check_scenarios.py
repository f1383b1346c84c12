"""Which texts are scenarios, and the line that tells why another is none. Each check yields a place, what the test wants, and
what is told here."""
import scenarios

ROWS = "crates/script_cases/src/rows.rt"
HEAD = '{"nodes":7,"faulty":2,"epochs":1'
CAST = ("silent", "babble", "silent")
NO_NUMBERS = ("null", "true", '"1"', "[]", "{}", "-0", "-1", "1.0", "1e0", "18446744073709551616")
NO_SUCH_KIND = ("null", "true", "7", '""', "[]", "{}")


def told(text):
    return scenarios.told(text if isinstance(text, bytes) else text.encode(), CAST)


def whole_texts(sources):
    for row in sources.constant(ROWS, "WHOLE").split("\n"):
        text, line = row.split(" | ")
        yield text, line, told(text)
    for text in ("", " ", "\ufeff{}", "{}\0"):
        yield repr(text), "refused 2 NotJson", told(text)


def keys_and_lists(sources):
    for name in ("NUMBERS", "SUBMIT", "LIARS", "LINKS", "STOPS", "FAULTS"):
        for row in sources.constant(ROWS, name).split("\n"):
            text, line = row.split(" | ")
            yield text, line, told(HEAD + text + "}")


def bounds_and_kinds(sources):
    for row in sources.constant(ROWS, "BOUNDS").split("\n"):
        text, place, low, high = row.split(" | ")
        wanted = {value: f"refused 6 NotNumber {place}" for value in NO_NUMBERS}
        wanted |= {low: "fine", high: "fine"}
        for beside in (int(low) - 1, int(high) + 1):
            if 0 <= beside < 2**64:
                wanted[str(beside)] = f"refused 7 OutOfRange {place} value={beside}"
        for value, line in wanted.items():
            yield f"{value} at {place}", line, told(text.replace("@", value))
    for row in sources.constant(ROWS, "KINDS").split("\n"):
        text, place, fitting = row.split(" | ")
        for value in NO_SUCH_KIND:
            if value != fitting:
                yield f"{value} at {place}", f"refused 3 WrongKind {place}", told(text.replace("@", value))


def long_texts(sources):
    for row in sources.constant(ROWS, "LONG").split("\n"):
        head, again, count, end, line = row.split(" | ")
        yield f"{count} times {again}", line, told(head + again * int(count) + end)
    least = '{"nodes":1,"faulty":0,"epochs":1}'
    for text, line in ((least + " " * 1_048_543, "fine"), (least + " " * 1_048_544, "refused 1 TooLong"),
                       ("[" * 127 + "]" * 127, "refused 3 WrongKind top 0 -"), ("[" * 128 + "]" * 128, "refused 2 NotJson")):
        yield f"{len(text)} bytes", line, told(text)


def fronts_of_a_scenario(sources):
    full = sources.constant("crates/script_cases/src/tests.rt", "FULL")
    yield "the whole scenario", "fine", told(full)
    for length in range(len(full)):
        yield f"its first {length} bytes", "refused 2 NotJson", told(full[:length])


CHECKS = [whole_texts, keys_and_lists, bounds_and_kinds, long_texts, fronts_of_a_scenario]
