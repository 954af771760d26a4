"""What tests of JSON share: values against schemas, and all numbers of a value."""

from __future__ import annotations

from collections.abc import Iterator
from typing import Any

from mcf.jsons import schema


def require_valid(said: object, name: str) -> None:
    """That a value is as a schema says."""
    import jsonschema
    jsonschema.Draft202012Validator(schema(name)).validate(said)


def fractions_in(value: Any) -> Iterator[dict[str, Any]]:
    """All numbers with an exact string in a value."""
    if isinstance(value, dict) and set(value) == {"exact", "float"}:
        yield value
    elif isinstance(value, (dict, list)):
        for one in value.values() if isinstance(value, dict) else value:
            yield from fractions_in(one)
