"""A small validator: as much of JSON Schema as docs/audit.schema.json uses, and a refusal of every keyword that it doesn't know."""

from __future__ import annotations

import re
from typing import Any

NOTES = {"$schema", "$defs", "title", "description"}
TYPES: dict[str, type | tuple[type, ...]] = {
    "object": dict, "array": list, "string": str, "boolean": bool, "null": type(None), "integer": int
}


class Schema:
    """A schema with its definitions."""

    def __init__(self, whole: dict[str, Any]) -> None:
        self._whole = whole

    def faults(self, value: object) -> list[str]:
        """What is wrong with a value, by where it is."""
        return self._faults(self._whole, value, "$")

    def _faults(self, schema: dict[str, Any], value: object, where: str) -> list[str]:
        found: list[str] = []
        for keyword, wanted in schema.items():
            if keyword in NOTES or keyword in ("required", "additionalProperties") and "properties" in schema:
                continue
            method = getattr(self, f"_{keyword.strip('$')}", None)
            if method is None:
                raise ValueError(f"{where}: the validator does not know the keyword {keyword}")
            found += method(wanted, value, where, schema)
        return found

    def _ref(self, wanted: str, value: object, where: str, _: object) -> list[str]:
        return self._faults(self._whole["$defs"][wanted.removeprefix("#/$defs/")], value, where)

    def _oneOf(self, wanted: list[dict[str, Any]], value: object, where: str, _: object) -> list[str]:
        count = sum(not self._faults(each, value, where) for each in wanted)
        return [] if count == 1 else [f"{where}: {count} of the forms fit"]

    def _type(self, wanted: str | list[str], value: object, where: str, _: object) -> list[str]:
        names = [wanted] if isinstance(wanted, str) else wanted
        fits = any(isinstance(value, TYPES[name]) and (name == "boolean" or not isinstance(value, bool)) for name in names)
        return [] if fits else [f"{where}: not of type {wanted}"]

    def _enum(self, wanted: list[object], value: object, where: str, _: object) -> list[str]:
        return [] if any(value == each and type(value) is type(each) for each in wanted) else [f"{where}: none of {wanted}"]

    def _const(self, wanted: object, value: object, where: str, _: object) -> list[str]:
        return [] if value == wanted else [f"{where}: not {wanted}"]

    def _minimum(self, wanted: int, value: object, where: str, _: object) -> list[str]:
        return [f"{where}: less than {wanted}"] if isinstance(value, int) and value < wanted else []

    def _pattern(self, wanted: str, value: object, where: str, _: object) -> list[str]:
        return [f"{where}: not like {wanted}"] if isinstance(value, str) and not re.search(wanted, value) else []

    def _minItems(self, wanted: int, value: object, where: str, _: object) -> list[str]:
        return [f"{where}: too few"] if isinstance(value, list) and len(value) < wanted else []

    def _maxItems(self, wanted: int, value: object, where: str, _: object) -> list[str]:
        return [f"{where}: too many"] if isinstance(value, list) and len(value) > wanted else []

    def _items(self, wanted: dict[str, Any], value: object, where: str, _: object) -> list[str]:
        items = value if isinstance(value, list) else []
        return [fault for at, item in enumerate(items) for fault in self._faults(wanted, item, f"{where}[{at}]")]

    def _properties(self, wanted: dict[str, Any], value: object, where: str, schema: dict[str, Any]) -> list[str]:
        if not isinstance(value, dict):
            return []
        found = [f"{where}: lacks {name}" for name in schema.get("required", []) if name not in value]
        for name, item in value.items():
            if name in wanted:
                found += self._faults(wanted[name], item, f"{where}.{name}")
            elif schema.get("additionalProperties") is False:
                found.append(f"{where}: has {name}")
        return found

    def _additionalProperties(self, wanted: dict[str, Any], value: object, where: str, _: object) -> list[str]:
        items = value.items() if isinstance(value, dict) else []
        return [fault for name, item in items for fault in self._faults(wanted, item, f"{where}.{name}")]
