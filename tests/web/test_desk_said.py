"""How pages say what the book has: an animal's facts, the options and counts of a change, and what somebody wrote into
a field."""
from __future__ import annotations

import dataclasses
import datetime
import pathlib
import sqlite3

import pytest

from web.said import in_each
from gudokeyi.domain.animals import NO_OWNER
from gudokeyi.domain.changes import Change, Option
from gudokeyi.domain.kinds import ChangeKind
from gudokeyi.domain.refusals import Refusal
from gudokeyi.reconcile.findings.by_hand import CommandRefused
from gudokeyi.render.page_language import PageLanguage
from gudokeyi.render.page_wording import PageWording
from gudokeyi.services.facts import facts_of
from gudokeyi.store.animal_rows import COLUMNS, AnimalRow
from gudokeyi.store.book import Book
from gudokeyi.store.changed_animals import id_of_command
from gudokeyi.store.schema import MIGRATIONS
from gudokeyi.web.forms import cleaned, owners_of, wrong_fields
from gudokeyi.web.views.changes import Given, counts_of, given_of, value_said, what_of

DAY = datetime.datetime(2024, 3, 1, tzinfo=datetime.timezone.utc)
EMBRYO = AnimalRow(
    "E-7", "HOLGBRF000000000007", "Else", "e-7", "else", "gone", "period", "2001-02", "2001-02-30", "period", "2009", None,
    None, "dam", 0, "Leihbock", "Oma", "name exit", "given", "2001-02-15", "HOLGBRM000000000001", "HOLGBRF000000000002",
    1, 5, "2003-04-05", None, "2009-07-01", None,
)  # fmt: skip
FACTS = {
    "id": "E-7", "standing": "hat keine Zeile mehr", "sex": "weiblich", "number": EMBRYO.registration_number,
    "name": "Else", "birth day": "15.02.2001 (erschlossen)", "sire": "V-1", "dam": "HOLGBRF000000000002", "owner": "Huber",
    "owner since": "05.04.2003", "exit": "01.07.2009 (erschlossen)", "exit reason": "", "stored embryo": "ja", "castrated": "",
    "basis of the birth day": "aus Monat oder Jahr: 2001-02", "basis of the sex": "da es Mutter ist",
    "sire in the sheet": "Leihbock", "dam in the sheet": "Oma", "exit in the sheet": "", "filed by hand": "Name, Abgang",
}  # fmt: skip


def change_of(kind: ChangeKind, options: tuple[Option, ...] = (), **values: object) -> Change:
    made = Change(7, kind, DAY, "me", 1, 3, None, options)
    for name, value in values.items():
        object.__setattr__(made, name, value)
    return made


def facts_said(row: AnimalRow, names: dict[str, str], owners: dict[int, str], words: PageLanguage) -> dict[str, str]:
    facts = facts_of(row, names, owners)
    return {fact.value: value_said(facts, fact, words) for fact in facts}


def test_facts() -> None:
    """Each fact is of its own field, in the page's language; one that isn't there is empty."""
    words, names, owners = PageLanguage("de"), {"HOLGBRM000000000001": "V-1"}, {5: "Huber", NO_OWNER: ""}
    assert facts_said(EMBRYO, names, owners, words) == FACTS
    plain = EMBRYO._replace(
        birth_source="given", birth_period=None, birth_no_such_day=None, sex_source="given", embryo=0,
        owner_code=NO_OWNER,
        sire=None, dam=None, exit_source="given", exit_period=None, departed=None, by_hand="", written_sire="",
    )  # fmt: skip
    said = facts_said(plain, names, owners, words)
    empty = {name for name, text in said.items() if not text}
    assert empty == {"sire", "dam", "owner", "exit", "exit reason", "stored embryo", "castrated", "basis of the birth day",
                     "basis of the sex", "sire in the sheet", "exit in the sheet", "filed by hand"}  # fmt: skip
    sold = facts_said(EMBRYO._replace(exit_text="verkauft"), names, owners, words)
    assert (sold["exit"], sold["exit in the sheet"]) == (FACTS["exit"], "verkauft")
    assert facts_said(EMBRYO._replace(castrated=1), names, owners, words)["castrated"] == "ja"
    assert said["birth day"] == "15.02.2001"
    invented = EMBRYO._replace(birth_source="invented", birth_period=None, birth_no_such_day=None)
    assert facts_said(invented, names, owners, words)["basis of the birth day"] == "erfunden"
    transferred = EMBRYO._replace(owner_day="inferred", from_owner=3)
    assert facts_said(transferred, names, owners, words)["owner since"] == "05.04.2003 (erschlossen)"


def test_refusal_of_an_inferred_day() -> None:
    """Where only an inferred day of its owner's forbids a command that is said."""
    refused, words = CommandRefused(ChangeKind.EXIT, "2001-01-01", Refusal.DAY_TOO_EARLY), PageLanguage("de")
    wording = PageWording(words)
    assert wording.told(refused.why()) == in_each("the day is before its birth, or before its owner got it")[1]
    told = wording.told(dataclasses.replace(refused, owner_since=DAY.date()).why())
    assert told.endswith("bekam; der erste Tag des Besitzers, 01.03.2024, ist erschlossen und weicht dem einer Tabelle")


def test_options() -> None:
    """A value that stands for something is said in words: a sex, an unknown parent, and a field without a column."""
    words = PageLanguage("fr")
    birth = change_of(ChangeKind.BIRTH, (Option("--day", "2024-03-01"), Option("--sex", "m"), Option("--sire", "SIR1"),
                                         Option("--dam", "Inconnue"), Option("--owner", "nn"), Option("--breed", "ABC")))  # fmt: skip
    assert given_of(birth, words) == [
        Given("Date de naissance", "01/03/2024"), Given("Sexe", "mâle"), Given("Père", "SIR1"), Given("Mère", "inconnu"),
        Given("Propriétaire", "nn"), Given("Race dans les numéros", "ABC"),
    ]  # fmt: skip
    take = change_of(ChangeKind.TAKE, (Option("--columns", 'sire=,"dam=M, x"'), Option("--no-animal", "Total"),
                                       Option("--columns", "nothing of that"), Option("--anyway")))  # fmt: skip
    said = given_of(take, words)
    assert said[:3] == [
        Given("Père", words.gettext("– no column –")), Given("Mère", "M, x"), Given("Lignes qui ne sont pas des animaux", "Total"),
    ]  # fmt: skip
    assert said[3].value == "nothing of that" and said[4] == Given(
        words.gettext("It is the right sheet: take it though it looks like another one")
    )


def test_counts() -> None:
    """All animals come first, then what is counted in one order, and nothing that there is none of."""
    counts = {"gone": 2, "animals": 9, "left out": 1, "changed": 0, "new": 1_000, "to look at": 4}
    take = change_of(ChangeKind.TAKE, counts=counts)
    assert counts_of(take, PageLanguage("de")) == "9 Tiere: 1.000 neu, 2 nicht mehr da, 1 weggelassen"
    assert counts_of(change_of(ChangeKind.TAKE, counts={"animals": 1}), PageLanguage("en")) == "1 animal"
    assert counts_of(change_of(ChangeKind.TAKE, counts={"gone": 1}), PageLanguage("fr")) == "1 disparu"
    # as a folder of an earlier version was taken over
    assert counts_of(change_of(ChangeKind.TAKE, counts={"animals": 9, "commands": 12}), PageLanguage("de")) == "9 Tiere"


def test_what() -> None:
    words = PageLanguage("en")
    undone = [what_of(change_of(ChangeKind.UNDO, undone_to=to), words) for to in (0, 3)]
    assert undone == ["brought back the empty book", "brought back the state after change 3"]


def test_animal_of_a_command() -> None:
    """That of the last command of the change, by the id that it has now."""
    with sqlite3.connect(":memory:") as connection:
        connection.executescript("".join(MIGRATIONS))
        connection.execute("PRAGMA foreign_keys = OFF")
        command = "INSERT INTO command VALUES (1, ?, 'parents', ?, NULL, NULL, NULL, NULL, NULL, 0, 0)"
        for place, number in enumerate(("HOLGBRF000000000009", EMBRYO.registration_number, "HOLGBRF000000000008"), 2):
            connection.execute(command, (place, number))
        for since, until, id in (1, 4, "earlier"), (4, None, "E-7"):
            values = (since, until, *EMBRYO._replace(id=id))
            connection.execute(
                f"INSERT INTO animal (since, until, {COLUMNS}) VALUES ({', '.join('?' * len(values))})", values
            )
        assert id_of_command(connection, change_of(ChangeKind.PARENTS)) == "E-7"
        assert id_of_command(connection, change_of(ChangeKind.PARENTS, length=2)) == ""


@pytest.mark.parametrize(("name", "text", "read"), [
    ("breed", " sku ", "SKU"), ("country", "deu", "DEU"), ("country", "de", "de"), ("country", "dé1", "dé1"),
    ("unknown", " nnn ", "nnn"),
])  # fmt: skip
def test_cleaned(name: str, text: str, read: str) -> None:
    """Three letters of a code are written in capitals, and blanks around a text are none of it."""
    assert cleaned(name, text) == read


def test_wrong() -> None:
    """Each field that can't be read is told, and no other; owners stand between semicolons."""
    book = Book(pathlib.Path("none"), None)
    wrong = {"breed": "x", "country": "x1", "day": "x", "youngest": "-1", "apart": "x", "sexes": "x", "owner": "x"}
    assert wrong_fields(wrong, book).keys() == wrong.keys()
    right = {"breed": "ABC", "country": "ABC", "day": "2001-03-01", "youngest": "1", "apart": "0", "sexes": "x=f"}
    assert wrong_fields(right | {"unknown": "-", "owner": ""}, book) == {}
    assert owners_of(" A=B ;; C, D=E") == ["A=B", "C, D=E"]
