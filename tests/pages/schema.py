"""A checker of JSON against the part of JSON Schema that docs/statement.schema.json has."""

import json
import re
from collections.abc import Iterator
from typing import Any

from tests.support.program import TOP

SCHEMA = json.loads((TOP / "docs" / "statement.schema.json").read_text(encoding="utf-8"))
KNOWN = {"$schema", "title", "description", "type", "required", "properties", "items", "enum",
         "additionalProperties", "pattern", "minimum", "maximum", "const"}
TYPES: dict[str, type] = {"object": dict, "array": list, "string": str, "integer": int,
                          "boolean": bool, "null": type(None)}


def is_of(value: Any, name: str) -> bool:
    return isinstance(value, TYPES[name]) and not (name == "integer" and isinstance(value, bool))


def against(value: Any, schema: dict[str, Any], place: str = "$") -> Iterator[str]:
    """What in a value isn't as the schema has it."""
    assert set(schema) <= KNOWN, f"{place}: the checker doesn't know {set(schema) - KNOWN}"
    names = schema.get("type", [])
    names = [names] if isinstance(names, str) else names
    if names and not any(is_of(value, name) for name in names):
        yield f"{place}: {value!r} is no {' or '.join(names)}"
        return
    if "const" in schema and value != schema["const"]:
        yield f"{place}: {value!r} isn't {schema['const']!r}"
    if "enum" in schema and value not in schema["enum"]:
        yield f"{place}: {value!r} isn't one of {schema['enum']}"
    if isinstance(value, str) and not re.search(schema.get("pattern", ""), value):
        yield f"{place}: {value!r} isn't of the form {schema['pattern']}"
    if is_of(value, "integer"):
        if value < schema.get("minimum", value) or value > schema.get("maximum", value):
            yield f"{place}: {value} is out of range"
    yield from inside(value, schema, place)


def inside(value: Any, schema: dict[str, Any], place: str) -> Iterator[str]:
    """The members of an object, and the items of an array."""
    if isinstance(value, dict):
        properties = schema["properties"]
        for name in schema["required"]:
            if name not in value:
                yield f"{place}: {name} is missing"
        for name, one in value.items():
            if name in properties:
                yield from against(one, properties[name], f"{place}.{name}")
            else:
                yield f"{place}: {name} isn't in the schema"
    if isinstance(value, list):
        for number, one in enumerate(value):
            yield from against(one, schema["items"], f"{place}[{number}]")


def faults(value: Any) -> list[str]:
    return list(against(value, SCHEMA))
