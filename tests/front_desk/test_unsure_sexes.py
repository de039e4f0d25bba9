"""Sexes that aren't sure, as `w?`: they are inferred, and told, and what else says the sex of the animal says it."""
from __future__ import annotations

import pytest

from front_desk.desk import Desk, NewDesk

TITLES = "id,Geschlecht,born,sire,dam\n"
PAIR = "a1,w,2015-03-01,,\na2,m,2015-03-02,,\n"


def sex_of(desk: Desk, id: str) -> str:
    return desk.good("show", id).out.splitlines()[2].split(maxsplit=1)[1]


@pytest.mark.parametrize(
    "text, wanted",
    [
        ("w?", "female"), ("m?", "male"), ("F?", "female"), ("Male?", "male"), ("w (?)", "female"), ("m ?", "male"),
        ("? w", "female"), ("prob. female", "female"), ("vermutlich m", "male"), ("M castré?", "male, castrated"),
        # as `list` writes them
        ("F (inferred)", "female"), ("M (invented)", "male"),
    ],
)  # fmt: skip
def test_inferred(desk: Desk, text: str, wanted: str) -> None:
    """Told in the report for each, and on the screen for all; the same list again changes nothing."""
    sheet = TITLES + PAIR + f"a3,{text},2018-03-13,a2,a1\na4,{text},2018-03-14,a2,a1\n"
    sex = wanted.removesuffix(", castrated")
    for _ in range(2):
        done = desk.take(sheet)
        done.tells(
            f"to look at: 2 cells of the column 'Geschlecht' have a sex that isn't certain, the first '{text}' in line 4: "
            "it is inferred, and taken where nothing else says the sex",
            f"line 4: a3: inferred: sex {sex}, and its cell isn't certain: '{text}'",
        )
        shown = sex_of(desk, "a3")
        assert shown.startswith(sex) and "inferred" in shown and ("castrated" in shown) == ("castrated" in wanted)
    assert " 0 changed, 2 inferred" in done.last
    assert sex_of(desk, "a1") == "female"


def test_other_sources(desk: Desk) -> None:
    """A parent is of the sex of its role, and what the book has given stays."""
    rows = "a3,m?,2017-03-13,a2,a1\na4,w,2017-03-13,a2,a1\na5,m,2020-03-13,a2,a3\n"
    done = desk.take(TITLES + PAIR + rows)
    done.tells("line 4: a3: inferred: sex female, since it is a dam, and its cell isn't certain: 'm?'")
    done = desk.take(TITLES + PAIR + rows.replace("a4,w", "a4,M castré?"))
    done.tells("line 5: a4: inferred: sex female, as in the book, and its cell isn't certain: 'M castré?'")
    assert desk.parents()["a5"] == ("a2", "a3")
    assert sex_of(desk, "a4") == "female" and sex_of(desk, "a3").startswith("female")


def test_sure_later(desk: Desk) -> None:
    """A cell without the mark is given; one that is emptied later keeps the sex of the book."""
    rows = "a3,m?,2017-03-13,a2,a1\na4,m?,2017-03-13,a2,a1\n"
    desk.take(TITLES + PAIR + rows)
    done = desk.take(TITLES + PAIR + rows.replace("a3,m?", "a3,w").replace("a4,m?", "a4,"))
    assert "changed: sex: female, before male" in done.told
    assert sex_of(desk, "a3") == "female" and sex_of(desk, "a4").startswith("male")


UNSURE = "a3,m?,2017-03-13,a2,a1\na4,w?,2017-03-13,a2,a1\na5,m castré?,2017-03-13,a2,a1\na6,,2017-03-13,a7,a1\n"
OF_UNSURE = {
    "a1": "female", "a3": "male (inferred)", "a4": "female (inferred)", "a5": "male (inferred), castrated",
    "a6": "female (inferred)", "a7": "male (inferred)",
}  # fmt: skip


def test_exported(desk: Desk, new_desk: NewDesk) -> None:
    """A sheet that can be taken again has the sexes of the book, and in a column of its own those that are inferred:
    they aren't given there either, unless they were written anew."""
    desk.take(TITLES + PAIR + UNSURE)
    rows = {row["id"]: (row["sex"], row["inferred_sex"]) for row in desk.listed("export")}
    assert [rows[id] for id in OF_UNSURE] == [
        ("F", ""), ("M", "M"), ("F", "F"), ("male castrated", "M"), ("F", "F"), ("M", "M"),
    ]  # fmt: skip
    other, text = new_desk(), desk.good("export").out
    done = other.take(text)
    assert "isn't sure" not in done.told and "words for sexes" not in done.told
    assert "'inferred_exit'" in done.out and "'inferred_sex'" not in done.out
    assert {id: sex_of(other, id) for id in OF_UNSURE} == {id: sex_of(desk, id) for id in OF_UNSURE} == OF_UNSURE
    assert " 0 new, 0 changed, " in other.take(text).last
    assert text.count("a4,,F,") == 1
    other.take(text.replace("a4,,F,", "a4,,M,"))
    assert sex_of(other, "a4") == "male"


@pytest.mark.parametrize("titles", ["Geschlecht: erschlossen; Geburtstag: erschlossen", "Sexe\u00a0: déduit", "Sex: inferred"])
def test_marked_in_a_list(desk: Desk, titles: str) -> None:
    """The same of a list in a page's language, with one column for all marks."""
    name = titles.rpartition(" ")[2]
    rows = f"a3,M,2017-03-13,a2,a1,{titles}\na4,F,2017-03-13,a2,a1,{titles}\na5,M,2017-03-13,a2,a1,Geburtstag: {name}\n"
    desk.take(f"id,Geschlecht,born,sire,dam,{name}\na1,w,2015-03-01,,,\na2,m,2015-03-02,,,\n{rows}")
    assert [sex_of(desk, id) for id in ("a3", "a4", "a5")] == ["male (inferred)", "female (inferred)", "male"]
