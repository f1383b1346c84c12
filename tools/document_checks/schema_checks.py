"""Holds scenarios/schema.json to the code, to the scenarios that ship and to inputs that are refused."""
import json
import pathlib

from . import facts, markdown, scenario_document
from .schema import accepts

NAME = "scenarios/schema.json"
# Which limit of the code a key of the top has.
TOP_LIMITS = {"nodes": "MOST_NODES", "faulty": "MOST_FAULTY", "epochs": "MOST_EPOCHS", "rounds": "MOST_ROUNDS",
              "batch": "MOST_BATCH", "version": "LATEST_VERSION", "workers": "MOST_WORKERS"}
# An entry of each list that every scenario may have.
ENTRIES = {
    "submit": {"node": 0, "tx": "00"},
    "liars": {"node": 0, "name": "silent"},
    "links": {"from": 0, "to": 0, "every": 1, "at": 0, "shape": "once"},
    "stops": {"node": 0, "actor": 0, "call": 1, "leave": "old"},
    "faults": {"node": 0, "actor": 0, "call": 1},
}


def load(root):
    return json.loads((pathlib.Path(root) / NAME).read_text(encoding="utf-8"))


def scenario(nodes, **keys):
    """A scenario of so many nodes, of which as many may be faulty as can be."""
    return {"nodes": nodes, "faulty": (nodes - 1) // 3, "epochs": 1, **keys}


def keys_and_limits(root):
    """The schema has the keys, the limits and the words of the code."""
    schema, limits, words = load(root), facts.limits(root), facts.choices(root)
    tops = schema["properties"]
    asked = {name: entry["items"] for name, entry in schema["$defs"].items() if "items" in entry} | {"top": schema}
    wrong = []
    for name, (required, optional) in facts.keys(root).items():
        rules = asked.get(name, {"required": [], "properties": {}})
        if rules["required"] != required or set(rules["properties"]) != set(required + optional):
            wrong.append(f"{NAME}: the keys of {name} are not those of the code")
    pairs = [(key, tops[key]["maximum"], limits[limit]) for key, limit in TOP_LIMITS.items()]
    entries = {name: scenario_document.entry_rules(schema, name) for name in ENTRIES}
    pairs += [
        ("hears", entries["liars"]["hears"]["maximum"], limits["MOST_POSTS"]),
        ("links", schema["$defs"]["links"]["maxItems"], limits["MOST_LINKS"]),
        ("every", entries["links"]["every"]["maximum"], limits["Every"]),
        ("call", entries["stops"]["call"]["maximum"], limits["Call"]),
        ("call", entries["faults"]["call"]["maximum"], limits["Call"]),
        ("order", tops["order"]["enum"], words["order"]),
        ("shape", entries["links"]["shape"]["enum"], words["shape"]),
        ("leave", entries["stops"]["leave"]["enum"], words["leave"]),
        ("name", entries["liars"]["name"]["enum"], facts.liars(root)),
        ("tx", f"{{1,{limits['LONGEST_TRANSACTION']}}}$" in entries["submit"]["tx"]["pattern"], True),
    ]
    return wrong + [f"{NAME}: {key} has {here}, and the code {there}" for key, here, there in pairs if here != there]


def edges(limits):
    """Scenarios at the edges of what may be, each with whether it is one."""
    for nodes in range(1, limits["MOST_NODES"] + 1):
        yield scenario(nodes), True
        yield scenario(nodes, faulty=(nodes - 1) // 3 + 1), False
        for name, entry in ENTRIES.items():
            if name == "liars" and nodes < 4:
                continue
            for key in {"node", "from", "to", "actor"} & set(entry):
                most = nodes if key == "actor" else nodes - 1
                yield scenario(nodes, **{name: [entry | {key: most}]}), True
                yield scenario(nodes, **{name: [entry | {key: most + 1}]}), False
        names = [{"node": node, "name": "silent"} for node in range(nodes)]
        yield scenario(nodes, liars=names[: (nodes - 1) // 3]), True
        yield scenario(nodes, liars=names[: (nodes - 1) // 3 + 1]), False
    for key, limit in TOP_LIMITS.items():
        if key not in ("nodes", "faulty"):
            yield scenario(4, **{key: limits[limit]}), True
            yield scenario(4, **{key: limits[limit] + 1}), False
    for key, most in (("seed", 2**64 - 1), ("seed", 0), ("workers", 0)):
        yield scenario(4, **{key: most}), True
        yield scenario(4, **{key: most + 1 if most else -1}), False
    yield from entry_edges(limits)


def entry_edges(limits):
    """The same for what entries of lists may be."""
    longest = "00" * limits["LONGEST_TRANSACTION"]
    for text in ("aF", longest):
        yield scenario(4, submit=[{"node": 0, "tx": text}]), True
    for text in (longest + "00", "", "0", "0g", "00\n", 0):
        yield scenario(4, submit=[{"node": 0, "tx": text}]), False
    for key, low, high in (("every", 1, limits["Every"]), ("call", 1, limits["Call"]), ("hears", 0, limits["MOST_POSTS"])):
        name = {"every": "links", "call": "stops", "hears": "liars"}[key]
        for value, is_one in ((low, True), (high, True), (low - 1, False), (high + 1, False), (True, False), (None, False)):
            yield scenario(4, **{name: [ENTRIES[name] | {key: value}]}), is_one
    for name, entry in ENTRIES.items():
        yield scenario(4, **{name: [entry | {"other": 1}]}), False
        yield scenario(4, **{name: {}}), False
        for key in set(entry) - {"from", "to"}:
            yield scenario(4, **{name: [{other: entry[other] for other in entry if other != key}]}), False
    for count, is_one in ((limits["MOST_LINKS"], True), (limits["MOST_LINKS"] + 1, False)):
        yield scenario(4, links=[ENTRIES["links"]] * count), is_one
    for second, is_one in ((0, False), (1, True)):
        yield scenario(7, liars=[ENTRIES["liars"], {"node": second, "name": "babble"}]), is_one


def at_edges(root):
    """The schema accepts what is just allowed, and refuses what is just not."""
    schema = load(root)
    return [f"{NAME}: it {'refuses' if is_one else 'accepts'} {json.dumps(value)[:200]}"
            for value, is_one in edges(facts.limits(root)) if accepts(schema, value) != is_one]


def shipped(root):
    """The schema accepts each scenario that ships."""
    schema, paths = load(root), scenario_document.scenario_files(root)
    values = {path.name: json.loads(path.read_text(encoding="utf-8")) for path in paths}
    wrong = [f"{NAME}: it refuses scenarios/{name}" for name, value in values.items() if not accepts(schema, value)]
    return wrong + ([] if paths else ["scenarios: there are none"])


def verdict(schema, path):
    """What the schema says of a refused input, in the words of the document."""
    try:
        value = json.loads(path.read_text(encoding="utf-8"))
    except ValueError:
        return "no JSON"
    return "no JSON" if path.suffix != ".json" else "accepts" if accepts(schema, value) else "refuses"


def refused(root):
    """The schema says of each refused input what the document tells."""
    schema, wrong, seen = load(root), [], set()
    table = markdown.table_under(scenario_document.read(root), "Refusals", "File")
    for line, row in table.rows if table else []:
        path = pathlib.Path(root) / "scenarios" / "refused" / "".join(markdown.spans(row[0]))
        if path.is_file():
            said = verdict(schema, path)
            seen.add(said)
            if said != row[3]:
                wrong.append(f"{scenario_document.NAME}:{line}: of {path.name} the schema {said}")
    both = seen >= {"accepts", "refuses"}
    return wrong + ([] if both else [f"{NAME}: there is no refused input that it accepts, or none that it refuses"])
