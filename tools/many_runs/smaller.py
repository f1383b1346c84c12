"""Makes a scenario smaller, as long as something holds of it.

Each step tries changes from the boldest to the least, and keeps each that still holds. All steps are gone through until none of
them changes anything. A change is tried only where it makes the scenario's weight less, so this ends. No chance is in it.
"""
from many_runs import scenario as forms


class Search:
    """The smallest scenario so far, and what was tried."""

    def __init__(self, scenario, holds, note):
        self.best, self.holds, self.note = scenario, holds, note
        self.seen = {forms.write(scenario)}

    def try_it(self, candidate, change):
        """Takes a candidate where it is valid, smaller, and new, and where what has to hold of it does."""
        if candidate is None or not forms.is_valid(candidate) or forms.weight(candidate) >= forms.weight(self.best):
            return False
        text = forms.write(candidate)
        if text in self.seen:
            return False
        self.seen.add(text)
        taken = self.holds(text)
        self.note(taken, change)
        if taken:
            self.best = candidate
        return taken


def smallest(search):
    """Goes through all steps until nothing changes."""
    while True:
        before = search.best
        for step in (_fewer_entries, _fewer_keys, _fewer_nodes, _lower_numbers, _shorter_transactions, _plainer_words):
            step(search)
        if search.best == before:
            return before


def _fewest(count, attempt):
    """Leaves out of so many things as many as it can: half of them, a quarter, and so on down to one alone.

    `attempt` is asked with the numbers of those that are kept, and answers whether they suffice.
    """
    kept = list(range(count))
    size = len(kept)
    while size >= 1:
        at = 0
        while at < len(kept):
            fewer = kept[:at] + kept[at + size:]
            if attempt(fewer):
                kept = fewer
            else:
                at += size
        size //= 2


def _fewer_entries(search):
    for name in forms.LISTS:
        rows = forms.entries(search.best, name)
        if name in search.best and not rows:
            search.try_it(forms.with_value(search.best, name, None), f"no empty {name}")

        def attempt(kept, name=name, rows=rows):
            left = [rows[index] for index in kept]
            return search.try_it(forms.with_value(search.best, name, left), f"{name}: {len(left)} entries")

        _fewest(len(rows), attempt)


def _fewer_keys(search):
    for key in list(search.best):
        if key not in forms.LISTS and key not in forms.NEEDED:
            search.try_it(forms.with_value(search.best, key, None), f"no {key}")
    for name, keys in forms.ENTRY_OPTIONAL.items():
        for index in range(len(forms.entries(search.best, name))):
            for key in keys:
                entry = dict(search.best[name][index])
                if entry.pop(key, None) is not None:
                    search.try_it(forms.with_entry(search.best, name, index, entry), f"{name} {index}: no {key}")


def _fewer_nodes(search):
    whole = search.best

    def attempt(kept):
        return search.try_it(_with_nodes(whole, kept), f"nodes: {len(kept)}")

    _fewest(whole["nodes"], attempt)


def _with_nodes(scenario, kept):
    """The scenario with these nodes alone, which get the numbers from 0 on. Lane J goes with node J."""
    if not kept:
        return None
    number = {node: index for index, node in enumerate(kept)}
    actors = {**number, scenario["nodes"]: len(kept)}
    changed = {**scenario, "nodes": len(kept), "faulty": min(scenario["faulty"], (len(kept) - 1) // 3)}
    for name in forms.LISTS:
        rows = [_renumbered(entry, number, actors) for entry in forms.entries(scenario, name)]
        rows = [row for row in rows if row is not None]
        if name == "liars":
            rows = rows[:changed["faulty"]]
        changed = forms.with_value(changed, name, rows)
    return changed


def _renumbered(entry, number, actors):
    """An entry with the new numbers of its nodes and its actor; None where one of them is gone."""
    changed = dict(entry)
    for key, numbers in (("node", number), ("from", number), ("to", number), ("actor", actors)):
        if key in entry:
            if entry[key] not in numbers:
                return None
            changed[key] = numbers[entry[key]]
    return changed


def _lower(value, least, attempt):
    """Lowers a number as far as it can: to the least, then by halves of what is left, down to one."""
    gap = value - least
    while gap >= 1:
        if value - gap >= least and attempt(value - gap):
            value -= gap
        else:
            gap //= 2


def _lower_numbers(search):
    for key, least in forms.NUMBERS.items():
        # Fewer nodes are a step of their own, which takes along what belongs to each.
        if key in search.best and key != "nodes":
            def attempt(value, key=key):
                return search.try_it(forms.with_value(search.best, key, value), f"{key}: {value}")

            _lower(search.best[key], least, attempt)
    for name in forms.LISTS:
        for index in range(len(forms.entries(search.best, name))):
            _lower_entry(search, name, index)


def _lower_entry(search, name, index):
    for key, least in forms.ENTRY_NUMBERS.items():
        if key in search.best[name][index]:
            def attempt(value, key=key):
                entry = {**search.best[name][index], key: value}
                return search.try_it(forms.with_entry(search.best, name, index, entry), f"{name} {index}: {key} {value}")

            _lower(search.best[name][index][key], least, attempt)


def _shorter_transactions(search):
    rows = forms.entries(search.best, "submit")

    def attempt_all(length):
        # Where two have to be equal they can only become shorter together.
        shorter = [{**row, "tx": row["tx"][:2 * length]} for row in rows]
        return search.try_it(forms.with_value(search.best, "submit", shorter), f"submit: {length} bytes at most")

    if rows:
        _lower(max(len(row["tx"]) // 2 for row in rows), 1, attempt_all)
    for index, entry in enumerate(forms.entries(search.best, "submit")):
        def attempt(length, index=index, text=entry["tx"]):
            shorter = {**search.best["submit"][index], "tx": text[:2 * length]}
            return search.try_it(forms.with_entry(search.best, "submit", index, shorter), f"submit {index}: {length} bytes")

        _lower(len(entry["tx"]) // 2, 1, attempt)


def _plainer_words(search):
    if "order" in search.best:
        search.try_it(forms.with_value(search.best, "order", "fifo"), "order: fifo")
    for name in forms.LISTS:
        for index in range(len(forms.entries(search.best, name))):
            for key, words in forms.WORDS.items():
                if key in search.best[name][index]:
                    _plainer_word(search, name, index, key, words)


def _plainer_word(search, name, index, key, words):
    for word in words[:words.index(search.best[name][index][key])]:
        entry = {**search.best[name][index], key: word}
        if search.try_it(forms.with_entry(search.best, name, index, entry), f"{name} {index}: {key} {word}"):
            return
