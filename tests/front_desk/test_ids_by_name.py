"""Which animals a text may mean: what looks keep of names finds the same as what is found of them anew."""
from __future__ import annotations

import random

from gudokeyi.reconcile.ids_by_name import IdsByName, NamesEver

WORDS = (
    "Lilo", "Ol1", "Max", "Mäx", "MAX", "of", "the", "Oil", "7", "Löwen", "Lowen", "lowen", "Gräfin", "Grafin", "ß",
    "ẞ", "×", "IO", "O1", "l0", "Rosa.", "a-b", "A'b", "Berta", "Betra", "-",
)  # fmt: skip


def drawn_name(draw: random.Random) -> str:
    return " ".join(draw.choice(WORDS) for _ in range(draw.choice([0, 1, 1, 2, 3, 9])))


def answers(found: IdsByName, text: str) -> list[object]:
    near = [found.near(text, also_nearly) for also_nearly in (True, False)]
    one_by_one = [find(text) for find in (found.same, found.meant, found.swapped, found.bare, found.with_one_letter)]
    return [*one_by_one, *near]


def test_kept_names_find_the_same() -> None:
    """Animals come and go, in other orders, and get other names."""
    draw, ever = random.Random(5), NamesEver()
    names = {f"DE-{at:03}": drawn_name(draw) for at in range(60)}
    for look in range(60):
        ids = [id for id in names if draw.random() < 0.95]
        if look % 7 == 0:
            draw.shuffle(ids)
        names[f"N{look}"] = drawn_name(draw)
        if look % 3 == 2:
            names[draw.choice(ids)] = drawn_name(draw)
        kept = IdsByName(ids, [names[id] for id in ids], ever)
        ever, anew = kept.ever, IdsByName(ids, [names[id] for id in ids])
        for text in [drawn_name(draw), draw.choice([*names]), draw.choice(WORDS)[::-1], f"de {look}", "OLI"]:
            assert answers(kept, text) == answers(anew, text), text


def test_what_a_text_means() -> None:
    """Of several animals the last one; an id before a name; two letters swapped, and accents that lack."""
    found = IdsByName(["A1", "B2", "C3", "D 4"], ["Löwe vom Hof", "Berta", "berta", "A1"])
    assert found.same("BERTA") == ["B2", "C3"] and found.same("LOWE VOM HOF") == ["A1"]
    assert (found.meant("Betra"), found.meant("d-4"), found.meant("a 1"), found.meant("x")) == ("C3", "D 4", "A1", "")
    assert found.swapped("2b") == ["B2"] and found.near("Löwe", False) == {"A1"} == found.near("Ch. Löwe vom Hof", False)
    assert found.near("Bertha", True) == {"B2", "C3"} and found.near("Bertha", False) == set()
