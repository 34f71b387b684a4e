"""docs/openapi.json: its operations have names, its days a form, its kinds the right members."""

import json
import re
import unittest
from collections.abc import Iterator
from typing import Any

from tests.documents.reading import text_of


def parts(value: Any) -> Iterator[dict[str, Any]]:
    """All objects of a JSON value."""
    if isinstance(value, dict):
        yield value
        for one in value.values():
            yield from parts(one)
    elif isinstance(value, list):
        for one in value:
            yield from parts(one)


def members_of_formats() -> dict[str, list[str]]:
    """The members of each kind, by the table of FORMATS."""
    table = text_of("docs/FORMATS.md").split("| kinds | members in order |")[1].split("\n\n")[0]
    found = {}
    for line in table.splitlines()[2:]:
        kinds, members = line.strip("| ").split(" | ")
        for kind in re.findall(r"`(\w+)`", kinds):
            found[kind] = members.split(", ")
    return found


class Description(unittest.TestCase):
    """What a reader of the description goes by."""

    def setUp(self) -> None:
        self.description: dict[str, Any] = json.loads(text_of("docs/openapi.json"))
        self.schemas: dict[str, Any] = self.description["components"]["schemas"]

    def test_operations_have_names(self) -> None:
        routes = self.description["paths"].values()
        names = [one.get("operationId") for route in routes for one in route.values()]
        self.assertEqual(6, len(set(names)))
        self.assertNotIn(None, names)

    def test_days_have_a_form(self) -> None:
        days = [one for one in parts(self.description) if one.get("format") == "date"]
        self.assertTrue(days)
        for one in days:
            for day in ("2011-01-01", "2019-10-29", "2099-12-31"):
                self.assertRegex(day, one["pattern"])
            for day in ("2010-12-31", "2100-01-01", "2024-13-01", "2024-01-32", "2024-1-1"):
                self.assertNotRegex(day, one["pattern"])

    def test_kinds_have_their_members(self) -> None:
        wanted = members_of_formats()
        named = {one["$ref"].rsplit("/", 1)[1] for one in self.schemas["Request"]["oneOf"]}
        self.assertEqual(set(wanted), named)
        for kind, members in wanted.items():
            with self.subTest(kind=kind):
                self.assertEqual(["kind", *members], self.schemas[kind]["required"])
                self.assertEqual(["kind", *members], list(self.schemas[kind]["properties"]))


if __name__ == "__main__":
    unittest.main()
