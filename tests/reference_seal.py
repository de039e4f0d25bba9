"""The seal of a book and certificates under it, by `hashlib` alone, of the lines that `records` prints of all animals.

A row is the places of the sire and of the dam, each with a comma behind it, and the animal's line of `records`. Places
count from 0; that of an unknown parent is empty. A digest is 32 bytes.
"""
from __future__ import annotations

import hashlib


def digest(kind: int, *parts: bytes) -> bytes:
    return hashlib.sha256(bytes([kind]) + b"".join(parts)).digest()


def rows_of(records: list[str]) -> list[str]:
    places = {record.split(",")[0]: str(place) for place, record in enumerate(records)}
    parents = [record.split(",")[2:4] for record in records]
    return [f"{places.get(sire, '')},{places.get(dam, '')},{it}" for (sire, dam), it in zip(parents, records)]


def leaves_of(rows: list[str]) -> list[bytes]:
    return [digest(0, row.encode()) for row in rows]


def half_of(leaves: list[bytes]) -> int:
    """The largest power of two below their number, of which there are two at least."""
    return 1 << ((len(leaves) - 1).bit_length() - 1)


def root_of(leaves: list[bytes]) -> bytes:
    if len(leaves) < 2:
        return leaves[0] if leaves else hashlib.sha256().digest()
    half = half_of(leaves)
    return digest(1, root_of(leaves[:half]), root_of(leaves[half:]))


def seal_of(rows: list[str], steps: int) -> bytes:
    return digest(2, len(rows).to_bytes(8, "big"), steps.to_bytes(8, "big"), root_of(leaves_of(rows)))


def beside(leaves: list[bytes], first: int, shown: list[int]) -> list[bytes]:
    """The digests of the largest subtrees without a shown leaf, of leaves from the place `first` on."""
    if not any(first <= place < first + len(leaves) for place in shown):
        return [root_of(leaves)]
    if len(leaves) == 1:
        return []
    half = half_of(leaves)
    return beside(leaves[:half], first, shown) + beside(leaves[half:], first + half, shown)


def with_ancestors(rows: list[str], place: int) -> list[int]:
    """The places of an animal and all its known ancestors, ascending."""
    shown, waiting = set[int](), [place]
    while waiting:
        one = waiting.pop()
        shown.add(one)
        waiting += [int(it) for it in rows[one].split(",")[:2] if it and int(it) not in shown]
    return sorted(shown)


def seal(records: list[str], steps: int) -> str:
    return f"{seal_of(rows_of(records), steps).hex()},{steps},{len(records)}\n"


def sealed(records: list[str], steps: int, number: str, coefficient: str) -> str:
    """The certificate of a number with this coefficient, a fraction and a percentage as `inbreeding` prints them."""
    rows = rows_of(records)
    place = [record.split(",")[0] for record in records].index(number)
    shown = with_ancestors(rows, place)
    claim = [seal_of(rows, steps).hex(), str(steps), str(len(rows)), str(place), number, coefficient]
    lines = [",".join(["herdbook-certificate-1", *claim]), *(f"{one},{rows[one]}" for one in shown)]
    return "".join(f"{line}\n" for line in [*lines, *(it.hex() for it in beside(leaves_of(rows), 0, shown))])
