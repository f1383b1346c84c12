"""All checks of the documents, by their names."""
import json

from . import facts, repository, scenario_document, schema_checks
from .schema import SchemaError

CHECKS = {
    "documents": repository.are_there,
    "README's size": repository.readme_size,
    "sentences": repository.sentences,
    "rows of proofs": repository.proof_rows,
    "crates": repository.crates,
    "paths": repository.paths,
    "links": repository.links,
    "refusals": scenario_document.refusals,
    "keys": scenario_document.keys,
    "limits of keys": lambda root: scenario_document.key_limits(root, schema_checks.load(root)),
    "liars": scenario_document.liars,
    "votes": scenario_document.votes,
    "words of votes": scenario_document.words_of_votes,
    "statuses": scenario_document.statuses,
    "lines of texts": scenario_document.lines,
    "examples": scenario_document.examples,
    "refused inputs": scenario_document.refused_inputs,
    "schema and code": schema_checks.keys_and_limits,
    "schema at its edges": schema_checks.at_edges,
    "schema and scenarios": schema_checks.shipped,
    "schema and refused inputs": schema_checks.refused,
}


def run(name, root):
    """What a check finds wrong. A file that is not there, or that has another form than the check knows, is wrong too."""
    try:
        return CHECKS[name](root)
    except (OSError, UnicodeError, json.JSONDecodeError, KeyError, IndexError, facts.FactError, SchemaError) as error:
        return [f"{name}: cannot be checked: {type(error).__name__}: {error}"]


def run_all(root):
    return [line for name in CHECKS for line in run(name, root)]
