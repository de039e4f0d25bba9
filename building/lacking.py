"""What a Python lacks of the packages that pyproject.toml names: `python3 -m building.lacking` prints them, for
`check`.

The status is 0 if it lacks none.
"""
from __future__ import annotations

import sys
import tomllib

from gudokeyi.packages import PROJECT, requirement


def lacking() -> list[str]:
    """The packages of all parts and of the tests that aren't there within their ranges, as pip takes them."""
    groups = tomllib.loads(PROJECT.read_text(encoding="utf-8"))["project"]["optional-dependencies"]
    wanted = {requirement(text, {}) for texts in groups.values() for text in texts}
    return sorted(one.text() for one in wanted if not one.is_met())


if __name__ == "__main__":
    missing = lacking()
    print("\n".join(missing))
    sys.exit(1 if missing else 0)
