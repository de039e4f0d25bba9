"""What cells mean: whether the last one and the one of now say the same, however each is written."""
from __future__ import annotations

from types import SimpleNamespace
from typing import cast

from gudokeyi.domain.animals import SocietyRecord
from gudokeyi.domain.kinds import Field
from gudokeyi.ingest.animals import SheetAnimal
from gudokeyi.ingest.day_cells import DayCells
from gudokeyi.ingest.unknown_parents import UnknownParents
from gudokeyi.reconcile.next_book import Meanings
from gudokeyi.store.book import Book

# of the sheet, where `x` has the id of the book's `only` for its name, `s` that of the sheet's `b01`, `z` an id that is
# nearly `b01`, and `y` one that differs in capitals alone in the sheet and in the book
NAMES = {
    "a": "Self", "b01": "Bob", "e": "Eva", "f": "Eva", "x": "only", "s": "b01", "z": "B1", "calf": "Ida", "i": "Ida",
    "u": "Uwe", "v": "Uwe", "k": "", "y": "K",
}  # fmt: skip
# of the book, where `b01` and `old` were called otherwise
NAMES_BEFORE = {"b01": "Bobby", "only": "", "old": "Olga", "g 7": "", "K": ""}


def are_alike(field: Field, before: object, now: str, of: str = "a") -> bool:
    """Where `Meier` is written `Meyer` from now on, and `nobody` is an unknown parent."""
    known = {id: SocietyRecord(f"HOLGBRF{at:012}", id, name) for at, (id, name) in enumerate(NAMES_BEFORE.items(), 1)}
    book = SimpleNamespace(society_records=known, respelt=lambda owner: {"Meier": "Meyer"}.get(owner, owner))
    animals = {id: SheetAnimal(id, 2, name) for id, name in NAMES.items()}
    days = DayCells(UnknownParents(["nobody"]), month_first=False)
    return Meanings(animals, cast(Book, book), days).are_alike(of, field, before, now)


def test_cells_that_say_the_same() -> None:
    for field, before, now in (
        (Field.NAME, None, ""), (Field.NAME, "Ame\u0301lie  B", "Amélie B"), (Field.OWNER, "Meier", "Meyer"),
        (Field.BIRTH, None, "?"), (Field.BIRTH, "2001-03-01", "01.03.2001"),
        (Field.SINCE, "2001-03-01", "1 March 2001"), (Field.EXIT, "verkauft 01.03.2001", "2001-03-01"), (Field.EXIT, "alive", ""), (Field.EXIT, "2005", "sold 2005"),
        (Field.EMBRYO, "YES", "1"), (Field.EMBRYO, "no", ""),
    ):  # fmt: skip
        assert are_alike(field, before, now), (field, before, now)


def test_cells_that_say_something_else() -> None:
    for field, before, now in (
        (Field.NAME, "Anna", ""), (Field.NAME, "Anna", "anna"), (Field.OWNER, "Meyer", "Meier"),
        (Field.BIRTH, "2001", "2001-01-01"), (Field.BIRTH, "2001-12", "2001"), (Field.BIRTH, "soon", "later"),
        (Field.SINCE, "2001", ""), (Field.EXIT, "sold", ""), (Field.EXIT, "sold", "died"), (Field.EMBRYO, "yes", "no"),
    ):  # fmt: skip
        assert not are_alike(field, before, now), (field, before, now)


def test_texts_of_parents_that_mean_the_same() -> None:
    """An id of the sheet or of the book is that of its animal; else a text is an id that is nearly it, or a name of now
    or before, of one animal alone but for the calf."""
    for role in Field.SIRE, Field.DAM:
        for text, id in (
            (None, ""), ("nobody", ""), ("NOBODY", "?"), ("BOB", "b01"), ("bobby", "b01"), ("olga", "old"),
            ("G07", "g 7"), ("B001", "b01"), ("Self", "Self"),
        ):  # fmt: skip
            assert are_alike(role, text, id) and are_alike(role, id, text or ""), (text, id)
        assert are_alike(role, "ida", "i", of="calf") and are_alike(role, "ida", "calf", of="i")
        for text, id in (
            ("only", "x"), ("b01", "s"), ("B1", "z"), ("Self", "a"), ("Uwe", "u"), ("Uwe", "v"), ("nobody", "b01"),
            ("K", "y"), ("k", "y"), ("K", "k"),
        ):  # fmt: skip
            assert not are_alike(role, text, id), (text, id)


def test_words_for_sexes() -> None:
    """A word for a sex says what another for it does; a castrated male is another than a male."""
    assert (
        are_alike(Field.SEX, "F", "weiblich")
        and are_alike(Field.SEX, "Ochse", "wether")
        and are_alike(Field.SEX, None, "")
    )
    assert (
        not are_alike(Field.SEX, "m", "Ochse")
        and not are_alike(Field.SEX, "F", "M")
        and not are_alike(Field.SEX, "Schf", "F")
    )
