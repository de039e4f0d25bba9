"""Named tuples and mappings of which a large book has many, made and read in a fraction of the usual time."""
from __future__ import annotations

from collections.abc import Callable, Iterator, Mapping
from typing import TypeVar

# Named tuples of which a large book has many: made of their values, in a fraction of the time that their class takes,
# which looks for names and defaults at each call.

# of a class and all its values
made = tuple.__new__


# A mapping that reads what is asked for: one value, or all of them where many are asked for.

Value = TypeVar("Value")

# after so many values that are read one by one all are read at once
MOST_ONE_BY_ONE = 2_000


class Lazy(Mapping[str, Value]):
    """Values by a key. `one` reads the value of a key, `all` those of all keys."""

    def __init__(self, one: Callable[[str], Value | None], all: Callable[[], dict[str, Value]]) -> None:
        self.one, self.all = one, all
        self.kept: dict[str, Value] = {}
        self.is_whole = False
        self.left = MOST_ONE_BY_ONE

    def __getitem__(self, key: str) -> Value:
        if key not in self.kept and not self.is_whole:
            self.left -= 1
            if self.left < 0:
                return self.whole()[key]
            found = self.one(key)
            if found is not None:
                self.kept[key] = found
        return self.kept[key]

    def whole(self) -> dict[str, Value]:
        if not self.is_whole:
            self.kept, self.is_whole = self.all(), True
        return self.kept

    def __iter__(self) -> Iterator[str]:
        return iter(self.whole())

    def __len__(self) -> int:
        return len(self.whole())


def whole(values: Mapping[str, Value]) -> Mapping[str, Value]:
    """All values, read at once."""
    return values.whole() if isinstance(values, Lazy) else values
