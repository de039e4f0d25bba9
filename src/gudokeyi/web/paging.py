"""Long tables, of which a page shows a part."""
from __future__ import annotations

from collections.abc import Callable, Sequence
from typing import Generic, NamedTuple, TypeVar
from urllib.parse import urlencode

from flask import request, url_for

Value = TypeVar("Value")
# so many rows of a table that is computed as a whole
ON_A_PAGE = 500


class Part(NamedTuple, Generic[Value]):
    """Rows of a page, which page of how many it is, and the addresses of those before and behind it."""

    rows: Sequence[Value]
    page: int
    pages: int
    before: str
    after: str


def part_of(rows: Sequence[Value]) -> Part[Value]:
    """The part that the request asks for; the last one where there are fewer pages."""
    return part_read(len(rows), lambda first, most: rows[first : first + most])


def part_read(count: int, read: Callable[[int, int], Sequence[Value]]) -> Part[Value]:
    """The same of so many rows that are read from a first one on, so many at most."""
    pages = max(1, -(-count // ON_A_PAGE))
    page = min(page_of(request.args.get("page", "")), pages)
    return Part(read((page - 1) * ON_A_PAGE, ON_A_PAGE), page, pages, address_of(page - 1), address_of(page + 1))


def page_of(text: str) -> int:
    """A page's number; 1 where the text is none."""
    return min(int(text), 1_000_000) if text.isdecimal() and len(text) < 9 and int(text) else 1


def address_of(page: int) -> str:
    """The address of the same page with another part of the table."""
    fields = request.args.to_dict() | {"page": str(page)}
    return f"{url_for(str(request.endpoint))}?{urlencode(fields)}"
