"""The births of a dam on a day are filed by one form, as one change."""
from __future__ import annotations

import pathlib
from collections.abc import Iterator

import pytest

from front_desk.desk import Desk
from front_desk.test_taken_back import SHEET
from gudokeyi.domain.messages import Mistake
from gudokeyi.services.litters import next_tag
from web.sent_forms import written_in
from web.site import Site, looked_in, shown, site_of

LITTER = {
    "dam": "D1", "sire": "Sultan", "day": "2021-03-01", "owner": "Oak", "id-0": "DE 0099", "sex-0": "F", "name-0": "Lea",
    "sex-1": "M", "sex-2": "F", "dead-2": "1", "sex-3": "F", "id-3": "X 9",
}  # fmt: skip


@pytest.fixture
def goat_site(desk: Desk, program: str, tmp_path: pathlib.Path) -> Iterator[Site]:
    desk.take(SHEET)
    with site_of(desk.room / "book", program, tmp_path / "dropped") as found:
        found.get("/language/de")
        yield found


def test_filed(goat_site: Site, desk: Desk) -> None:
    """Tags count on, and one that was born dead has left on that day; all of it is undone as it came."""
    answer = goat_site.post("/litter", **LITTER)
    page = shown(goat_site.page(answer.headers["Location"]))
    for text in ("Der Wurf ist gemeldet: Änderung 2.", "meldete einen Wurf", "4 neu", "Mutter: D1", "Besitzer: Oak"):
        assert text in page, text
    with goat_site.desk.opened() as book:
        assert book
        new = {row.id: row for row in book.all_rows if row.born == "2021-03-01"}
        assert [*new] == ["DE 0099", "DE 0100", "D1 2021-03-01 †1", "X 9"]
        assert {(row.sire, row.dam) for row in new.values()} == {("HOLGBRM000000000001", "HOLGBRF000000000002")}
        assert [row.registration_number[6:] for row in new.values()] == [f"{sex}00000000000{at}" for sex, at in zip("FMFF", "5678")]
        dead = new["D1 2021-03-01 †1"]
        assert (dead.departed, dead.exit_reason) == ("2021-03-01", "stillborn") and new["X 9"].departed is None
    goat_site.post("/history/1/undo", **looked_in(goat_site.page("/history/1/undo")))
    with goat_site.desk.opened() as book:
        assert book and not book.society_records.keys() & new.keys()


@pytest.mark.parametrize("fields, told", [
    ({"id-0": ""}, "das erste lebende Jungtier braucht eine Ohrmarke"),
    ({"id-0": "Lea"}, "die Ohrmarke Lea endet nicht mit Ziffern"),
    ({"id-3": "A1"}, "das Herdbuch hat ein Tier mit der Ohrmarke A1"),
    ({"id-3": "DE 0100"}, "zwei Jungtiere haben die Ohrmarke DE 0100"),
    ({"sex-3": ""}, "das Geschlecht von X 9 fehlt"),
    ({"dam": "A2"}, "DE 0099: die Mutter ist nicht weiblich"),
    ({"day": "2018-05-01"}, "die Mutter D1 hat A1 nur 61 Tage vorher geboren; unter 100 wird es gemeldet"),
    ({"owner": "Oakk"}, "ist „Oak“ gemeint?"),
    ({"name-3": "lea"}, "DE 0099 hat denselben Namen und Geburtstag"),
])  # fmt: skip
def test_mistakes(goat_site: Site, fields: dict[str, str], told: str) -> None:
    """Nothing is filed, and all that was written stays; what may be wrong is filed all the same by its button."""
    sent = {**LITTER, **fields}
    answer = goat_site.post("/litter", **sent)
    text = answer.get_data(as_text=True)
    assert answer.status_code == 400 and told.casefold() in shown(text).casefold(), shown(text)
    assert {name: written_in(text).get(name, "") for name in sent if not name.startswith("sex")} == {
        name: value for name, value in sent.items() if not name.startswith("sex")
    }
    with goat_site.desk.opened() as book:
        assert book and book.change and book.change.number == 1
    if 'name="anyway"' in text:
        seen = text.partition('name="anyway" value="')[2].partition('"')[0]
        assert goat_site.post("/litter", **sent, anyway=seen).headers["Location"] == "/history/2"


def test_next_tag() -> None:
    assert [next_tag(tag) for tag in ("DE 0099", "9", "A-1/09")] == ["DE 0100", "10", "A-1/10"]
    with pytest.raises(Mistake):
        next_tag("A1b")


def test_word(desk: Desk) -> None:
    desk.take(SHEET)
    words = ["litter", "D1", "--day", "2021-03-01", "--newborn", "f=7=Lea", "--stillborn", "m", "--newborn", "m"]
    assert "8 (HOLGBRM000000000007): the birth on 2021-03-01 is accepted: change 2" in desk.good(*words).out
    desk.good("verify")
