"""Animals are found without accents and case, tags with other blanks and dots, and by the ids that they had; and it is
said why, where that isn't seen."""
from __future__ import annotations

import time

import pytest

from front_desk.desk import Desk
from gudokeyi.domain.folding import always_same, folded, pattern_of, tag_of
from gudokeyi.services.opening import book_in
from gudokeyi.services.search import condition_of_words, why_found

SHEET = (
    "id,name,sex,born,sire,dam,owner\nDE 01 234,Zoé,F,2015-03-01,,,Hof Müller\nDE.01.235,Ænne,F,2015-04-01,,,Łuk\n"
    "FR-1/7,Œillet,M,2015-05-01,,,Hof Müller\nX*1,Straße,M,2015-06-01,,,\n"
)  # fmt: skip


@pytest.fixture
def found_desk(desk: Desk) -> Desk:
    desk.take(SHEET)
    return desk


def found(desk: Desk, *words: str) -> list[str]:
    with book_in(desk.room / "book") as book:
        return [row.id for row in book.rows(condition_of_words(book, words), in_age_order=True)]


@pytest.mark.parametrize("words, ids", [
    (["zoe"], ["DE 01 234"]), (["ZOÉ"], ["DE 01 234"]), (["zoè"], ["DE 01 234"]), (["muller"], ["DE 01 234", "FR-1/7"]),
    (["MÜLLER", "fr17"], ["FR-1/7"]), (["de01234"], ["DE 01 234"]), (["DE.01-23"], ["DE 01 234", "DE.01.235"]),
    (["de 01 235"], ["DE.01.235"]), (["luk"], ["DE.01.235"]), (["strasse"], ["X*1"]), (["x*"], ["X*1"]), (["*"], ["X*1"]),
    (["-"], ["FR-1/7"]), (["[x]"], []), (["?"], []), (["œil"], ["FR-1/7"]), (["zoo"], []),
])  # fmt: skip
def test_found(found_desk: Desk, words: list[str], ids: list[str]) -> None:
    assert found(found_desk, *words) == ids


def test_one(found_desk: Desk) -> None:
    """One that is named so is meant, unless several are."""
    for word in "de01234", "DE 01.234", "Zoe", "STRASSE":
        assert found_desk.good("show", word).out.partition("\n")[0] in ("DE 01 234  Zoé", "X*1  Straße"), word
    found_desk.good("birth", "DE01.234", "--sex", "f", "--day", "2020-01-01")
    found_desk.wrong("the book has no animal 'de-01234'", "show", "de-01234")


def test_former_id(found_desk: Desk) -> None:
    found_desk.good("correct", "FR-1/7", "--id", "FR 99")
    done = found_desk.good("find", "fr1.7")
    assert "FR 99" in done.out and "'FR-1/7' was the id of FR 99 before it was corrected" in done.err
    assert "was the id" not in found_desk.good("find", "fr99").err
    with book_in(found_desk.room / "book") as book:
        row = next(row for row in book.all_rows if row.id == "FR 99")
        assert why_found(book, row, ["1/7"]).former_ids == ("FR-1/7",) and not why_found(book, row, ["1/7"]).number
        assert why_found(book, row, ["M0000"]).number == row.registration_number
        assert why_found(book, row, ["oeillet"]) == why_found(book, row, ["hof"]) == ((), "", "")
    found_desk.good("undo")
    assert found(found_desk, "fr99") == [] and found(found_desk, "fr17") == ["FR-1/7"]


def test_folded() -> None:
    assert [folded(text) for text in ("ÉÈ", "ß", "Øre", "ŁÓDŹ")] == ["ee", "ss", "ore", "lodz"]
    assert tag_of("De_01.2/3-4 5") == "de012345" and pattern_of("a*?[1]")[-10:] == "[*][?][[]1]"[-10:]


def test_always_same() -> None:
    """No accent makes another of these; each other letter may have one."""
    assert always_same("berta 12-7") == " 12-7" and always_same("zoe", ".") == "..."
    assert always_same("a1e2", ".") == ".1.2" and always_same("*?[") == "*?["


# ids and names, with accents in each place, and with signs within ids
IDS = ("DE-1/É2", "de1e2", "D.E1-e/2", "X*3", "É", "12-3 4", "Ñ-1_2", "n12", "[7]")
NAMES = ("Zoé 12", "zoe-12", "ZÓE1 2", "Ærø 7", "a?b", "93 Löwe", "Lowe 9", "", "É")


@pytest.mark.parametrize("text", sorted({
    text[first : first + count].strip() for text in (*IDS, *NAMES) for first in range(len(text)) for count in (1, 2, 4)
} - {""}))  # fmt: skip
def test_each_part(pairs_desk: Desk, text: str) -> None:
    """What is found is what has the text without case and accents, in the name or, also without signs, in the id."""
    plain, tag = folded(text), tag_of(text)
    with book_in(pairs_desk.room / "book") as book:
        meant = {
            row.id
            for row in book.all_rows
            if (tag in tag_of(row.id) if tag else text.casefold() in row.id.casefold())
            or plain in folded(row.name)
            or text.upper() in row.registration_number
        }
        assert {row.id for row in book.rows(condition_of_words(book, [text]))} == meant


@pytest.fixture(scope="module")
def pairs_desk(program: str, tmp_path_factory: pytest.TempPathFactory) -> Desk:
    """A book with each of these ids and names."""
    found = Desk(tmp_path_factory.mktemp("pairs"), program)
    rows = (f'"{id}","{name}",F,2015-03-01,,\n' for id, name in zip(IDS, NAMES))
    found.take("id,name,sex,born,sire,dam\n" + "".join(rows))
    return found


def test_time(desk: Desk) -> None:
    """Many animals are gone through in a moment."""
    titles, count = "id,name,sex,born,sire,dam\n", 20_000
    names = ("Zoé", "Bärbel", "Anna-Lena", "Hugo von der Aue")
    desk.take(titles + "".join(f"DE 01 {at:06},{names[at % 4]} {at},F,2015-03-01,,\n" for at in range(count)))
    begun = time.process_time()
    assert len(found(desk, "zoe", "01.0000")) == 26
    assert time.process_time() - begun < 2
