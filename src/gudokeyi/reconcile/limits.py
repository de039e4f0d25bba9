"""Limits in days: how old a parent is at least and at most at a birth, and how far two births of one dam are from one
another."""
from __future__ import annotations

from dataclasses import dataclass

YOUNGEST, APART = 180, 100
# of sixty years; the semen of a sire may be as old
OLDEST = 21_915


@dataclass(frozen=True, slots=True)
class Limits:
    """How many days old a parent is at least, and how far the births of one dam are from one another; whether somebody
    said that: else it is also seen by what is usual among the births."""

    youngest: int = YOUNGEST
    apart: int = APART
    is_apart_said: bool = False
