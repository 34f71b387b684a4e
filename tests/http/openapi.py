"""docs/openapi.json, against which answers are held."""

import json
import re
from typing import Any

from ..support.program import TOP

# What an answer outside the described routes may be: no request, no such path, another method,
# a head that is too large.
OUTSIDE = (400, 404, 405, 431)


class Description:
    """The answers that are described, by route and method."""

    def __init__(self) -> None:
        with open(TOP / "docs" / "openapi.json", encoding="utf-8") as file:
            paths: dict[str, Any] = json.load(file)["paths"]
        self.routes = [
            (re.compile(re.sub(r"\{[a-z]+\}", "[^/]+", path)), methods)
            for path, methods in paths.items()
        ]

    def has(self, method: str, path: str, status: int, kind: str | None) -> bool:
        """Whether an answer of this status and content type is described."""
        for pattern, methods in self.routes:
            route = methods.get(method.lower())
            if pattern.fullmatch(path.split("?")[0]) and route:
                described = route["responses"].get(str(status))
                if described and kind in described["content"]:
                    return True
        return status in OUTSIDE
