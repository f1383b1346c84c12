"""Scenarios as Python has them: a dict as JSON gives it. Which are valid, how large one is, and how one is written."""
import json

NUMBERS = {"nodes": 1, "faulty": 0, "epochs": 1, "rounds": 1, "batch": 1, "seed": 0, "version": 1, "workers": 0}
NEEDED = ("nodes", "faulty", "epochs")
LISTS = ("submit", "liars", "links", "stops", "faults")
# The least value of each number of an entry.
ENTRY_NUMBERS = {"node": 0, "from": 0, "to": 0, "actor": 0, "every": 1, "at": 0, "call": 1, "hears": 0}
ENTRY_OPTIONAL = {"liars": ("hears",), "links": ("from", "to")}
# Words from the plainest to the one that does most.
WORDS = {
    "order": ("fifo", "mixed"),
    "shape": ("once", "twice", "late", "drop"),
    "leave": ("old", "new", "torn"),
    "name": ("silent", "equivocate", "echo_split", "bval_both", "false_share", "babble"),
}
MOST_FOR_ACTOR = 4


def loads(text):
    """The scenario that the program reads in these bytes, once it has taken them for one."""
    return json.loads(text)


def entries(scenario, name):
    return scenario.get(name, [])


def with_value(scenario, key, value):
    """The scenario with another value of a key. A list that is empty has no key."""
    changed = dict(scenario)
    if value is None or value == []:
        changed.pop(key, None)
    else:
        changed[key] = value
    return changed


def with_entry(scenario, name, index, entry):
    """The scenario with another entry in the place of one."""
    changed = list(scenario[name])
    changed[index] = entry
    return with_value(scenario, name, changed)


def is_valid(scenario):
    """Whether a scenario that is made smaller of a valid one is valid still: what ties its numbers to each other holds."""
    nodes, faulty = scenario["nodes"], scenario["faulty"]
    liars = [entry["node"] for entry in entries(scenario, "liars")]
    if nodes < 1 or nodes <= 3 * faulty or len(liars) > faulty or len(set(liars)) < len(liars):
        return False
    for name in LISTS:
        for entry in entries(scenario, name):
            if any(entry.get(key, 0) >= nodes for key in ("node", "from", "to")):
                return False
            if entry.get("actor", 0) > nodes or ("every" in entry and entry["at"] >= entry["every"]):
                return False
    return all(_few_for_each_actor(entries(scenario, name)) for name in ("stops", "faults"))


def _few_for_each_actor(plans):
    actors = [(plan["node"], plan["actor"]) for plan in plans]
    return all(actors.count(actor) <= MOST_FOR_ACTOR for actor in set(actors))


def elements(scenario):
    """How many keys and entries a scenario has, those of entries that may be left out among them."""
    count = sum(1 for key in scenario if key not in LISTS)
    for name in LISTS:
        for entry in entries(scenario, name):
            count += 1 + sum(key in entry for key in ENTRY_OPTIONAL.get(name, ()))
    return count


def weight(scenario):
    """What each change of tools/shrink makes less: nodes, then elements, then letters and numbers."""
    letters, total = 0, 0
    for entry in [scenario] + [entry for name in LISTS for entry in entries(scenario, name)]:
        for key, value in entry.items():
            if key in WORDS:
                total += WORDS[key].index(value)
            elif key == "tx":
                letters += len(value)
            elif key not in LISTS:
                total += value
    return scenario["nodes"], elements(scenario), letters + total


def write(scenario):
    """The scenario as JSON, with a line for each number and each entry."""
    parts = []
    for key, value in scenario.items():
        if isinstance(value, list):
            rows = ",\n    ".join(json.dumps(entry) for entry in value)
            parts.append(f'"{key}": [\n    {rows}\n  ]' if value else f'"{key}": []')
        else:
            parts.append(f'"{key}": {json.dumps(value)}')
    return "{\n  " + ",\n  ".join(parts) + "\n}\n"
