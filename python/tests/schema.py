"""A small checker of JSON Schema 2020-12, for the keywords that docs/satmegwo.schema.json has; any other keyword is an error."""
import json
import re

from .places import ROOT

SCHEMA = json.loads((ROOT / "docs" / "satmegwo.schema.json").read_text(encoding="utf-8"))
TYPES = {"object": dict, "array": list, "string": str, "integer": int, "boolean": bool, "null": type(None)}
SAID = {"$schema", "$defs", "title", "description"}  # they ask nothing of a value


def _type(value, wanted):
    is_truth = isinstance(value, bool)  # which Python counts among the integers
    return isinstance(value, TYPES[wanted]) and is_truth == (wanted == "boolean")


def _members(schema, value, at):
    """The faults of an object's members."""
    if not isinstance(value, dict):
        return []
    properties = schema.get("properties", {})
    found = [f"{at} has no {name}" for name in schema.get("required", ()) if name not in value]
    for name, part in value.items():
        if name in properties:
            found += faults(part, properties[name], f"{at}.{name}")
        elif schema.get("additionalProperties", True) is False:
            found.append(f"{at} has {name}")
    return found


def _items(schema, value, at):
    """The faults of a list."""
    if not isinstance(value, list):
        return []
    found = [f"{at} has {len(value)} items" for _ in [0] if not schema.get("minItems", 0) <= len(value) <= schema.get("maxItems", len(value))]
    for place, part in enumerate(value):
        found += faults(part, schema.get("items", {}), f"{at}[{place}]")
    return found


def _plain(schema, value, at):
    """The faults of a value by itself."""
    is_number = _type(value, "integer")
    wrong = [
        "type" in schema and not _type(value, schema["type"]),
        "const" in schema and (type(value), value) != (type(schema["const"]), schema["const"]),
        "enum" in schema and (type(value), value) not in [(type(one), one) for one in schema["enum"]],
        "pattern" in schema and isinstance(value, str) and not re.search(schema["pattern"], value),
        is_number and not schema.get("minimum", value) <= value <= schema.get("maximum", value),
    ]
    return [f"{at} is {value!r:.40}"] if any(wrong) else []


KNOWN = SAID | set(
    "$ref anyOf type const enum pattern minimum maximum properties required additionalProperties items minItems maxItems".split()
)


def faults(value, schema=None, at="it"):
    """What is wrong with a value, in words; nothing where it is as the schema says."""
    schema = SCHEMA if schema is None else schema
    unknown = set(schema) - KNOWN
    if unknown:
        raise ValueError(f"the checker does not know {unknown}")
    found = _plain(schema, value, at) + _members(schema, value, at) + _items(schema, value, at)
    if "$ref" in schema:
        found += faults(value, SCHEMA["$defs"][schema["$ref"].removeprefix("#/$defs/")], at)
    if "anyOf" in schema and all(faults(value, one, at) for one in schema["anyOf"]):
        found.append(f"{at} is none of those that it may be")
    return found
