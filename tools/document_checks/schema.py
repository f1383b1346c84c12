"""Holds a JSON value to a JSON Schema (draft 2020-12), as far as scenarios/schema.json uses its keywords.

A keyword that is not known here is an error of the schema, and not skipped: a rule that nobody checks would look like one that
holds. Patterns have to be anchored at both ends.
"""
import re

# Keywords that ask for nothing.
SILENT = {"$schema", "$defs", "title", "description", "default"}


class SchemaError(Exception):
    """The schema itself is at fault."""


def is_kind(value, kind):
    """Whether a value is of a kind. A number such as 4.0 counts as an integer, as the draft has it."""
    if kind == "integer":
        return is_number(value) and value == int(value)
    kinds = {"object": dict, "array": list, "string": str}
    if kind not in kinds:
        raise SchemaError(f"unknown type {kind}")
    return isinstance(value, kinds[kind])


def is_number(value):
    """Whether a value is a number. Python counts true and false among its numbers."""
    return isinstance(value, (int, float)) and not isinstance(value, bool)


def is_same(one, other):
    """Whether two values are one JSON value, of those that stand in lists of words and numbers."""
    return isinstance(one, bool) == isinstance(other, bool) and one == other


def matches(pattern, text):
    """Whether a text has a pattern from its beginning to its end."""
    if not pattern.startswith("^") or not pattern.endswith("$"):
        raise SchemaError(f"the pattern {pattern} is not anchored")
    return re.fullmatch(pattern[1:-1], text) is not None


def breaks_object(rule, asked, schema, value, root):
    """Whether an object breaks a rule on objects. Values of other kinds break none."""
    if not isinstance(value, dict):
        return False
    if rule == "required":
        return any(key not in value for key in asked)
    if rule == "additionalProperties":
        if asked is not False:
            raise SchemaError("additionalProperties has to be false")
        return any(key not in schema["properties"] for key in value)
    return any(key in value and not accepts(part, value[key], root) for key, part in asked.items())


def breaks_list(rule, asked, schema, value, root):
    """Whether a list breaks a rule on lists."""
    if not isinstance(value, list):
        return False
    if rule == "maxItems":
        return len(value) > asked
    if rule == "items":
        return not all(accepts(asked, item, root) for item in value)
    count = sum(accepts(asked, item, root) for item in value)
    return not schema.get("minContains", 1) <= count <= schema.get("maxContains", len(value))


def breaks_value(rule, asked, value):
    """Whether a value breaks a rule on a single value."""
    if rule == "type":
        return not is_kind(value, asked)
    if rule == "minimum":
        return is_number(value) and value < asked
    if rule == "maximum":
        return is_number(value) and value > asked
    if rule == "const":
        return not is_same(value, asked)
    if rule == "enum":
        return not any(is_same(value, word) for word in asked)
    return isinstance(value, str) and not matches(asked, value)


def breaks_parts(rule, asked, schema, value, root):
    """Whether a value breaks a rule that is made of other schemas."""
    if rule == "allOf":
        return not all(accepts(part, value, root) for part in asked)
    if rule == "if":
        return accepts(asked, value, root) and not accepts(schema["then"], value, root)
    name = asked.removeprefix("#/$defs/")
    if name not in root["$defs"]:
        raise SchemaError(f"there is no {asked}")
    return not accepts(root["$defs"][name], value, root)


def breaks(rule, schema, value, root):
    """Whether a value breaks one rule of a schema."""
    asked = schema[rule]
    if rule in SILENT or rule in ("then", "minContains", "maxContains"):
        return False
    if rule in ("required", "additionalProperties", "properties"):
        return breaks_object(rule, asked, schema, value, root)
    if rule in ("items", "maxItems", "contains"):
        return breaks_list(rule, asked, schema, value, root)
    if rule in ("type", "minimum", "maximum", "const", "enum", "pattern"):
        return breaks_value(rule, asked, value)
    if rule in ("allOf", "if", "$ref"):
        return breaks_parts(rule, asked, schema, value, root)
    raise SchemaError(f"unknown keyword {rule}")


def accepts(schema, value, root=None):
    """Whether a schema accepts a value."""
    root = schema if root is None else root
    return not any(breaks(rule, schema, value, root) for rule in schema)
