"""Commands that are filed by forms: the reply is the register's, it is stored before it is shown, and it is that of the
words."""
from __future__ import annotations

import concurrent.futures
import pathlib
import re
import time

import pytest

from web.said import in_each
from web.sent_forms import written_in
from web.site import SECONDS, Site, form_in, looked_in, shown
from front_desk.desk import Desk
from gudokeyi.domain.refusals import Refusal

DAM, SIRE = "GK-17/472c", "GK-10/294b"
BIRTH = {
    "id": "NEW-1",
    "name": "Berta <b>",
    "sex": "F",
    "day": "2024-03-01",
    "sire": SIRE,
    "dam": DAM,
    "owner": "Oak Lodge",
}
BIRTH_WORDS = ["birth", "NEW-1", "--name", "Berta <b>", "--sex", "f", "--day", "2024-03-01", "--sire", SIRE, "--dam", DAM,
               "--owner", "Oak Lodge"]  # fmt: skip
COMMANDS = [
    ("birth", BIRTH, BIRTH_WORDS),
    ("exit", {"id": DAM, "day": "2024-05-01"}, ["exit", DAM, "--day", "2024-05-01"]),
    ("transfer", {"id": DAM, "day": "2024-05-01", "to": "New  owner"}, ["transfer", DAM, "--day", "2024-05-01", "--to", "New owner"]),
    ("parents", {"id": DAM, "sire": SIRE, "dam": "0"}, ["parents", DAM, "--sire", SIRE, "--dam", "0"]),
    ("parents", {"id": DAM, "sire": " k. A. ", "dam": "NN"}, ["parents", DAM, "--sire", "0", "--dam", "0"]),
    ("birth", BIRTH | {"dam": "unknown", "embryo": "1"}, [*["0" if word == DAM else word for word in BIRTH_WORDS], "--embryo"]),
    # refused
    ("birth", BIRTH | {"sire": DAM}, [DAM if word == SIRE else word for word in BIRTH_WORDS]),
    ("exit", {"id": DAM, "day": "1999-05-01"}, ["exit", DAM, "--day", "1999-05-01"]),
]  # fmt: skip


@pytest.mark.parametrize(
    "kind, fields, words", COMMANDS, ids=[f"{words[0]} {at}" for at, (*_, words) in enumerate(COMMANDS)]
)
def test_as_the_words(
    site: Site, taken_society: Desk, tmp_path: pathlib.Path, kind: str, fields: dict[str, str], words: list[str]
) -> None:
    """A form makes the change that a word makes, with its reply, which the page shows as it is stored."""
    by_word = taken_society.copy_to(tmp_path / "by word")
    told = by_word.run(*words)
    answer = site.post(f"/file/{kind}", **fields)
    assert answer.status_code == 302 and answer.headers["Location"] == "/answer/2"
    with site.desk.opened() as book:
        assert book and book.change and book.change.number == 2
    page = shown(site.page("/answer/2"))
    refused = re.search(r"refusal (\d+)", told.err)
    if refused:
        assert "Refused." in page and Refusal(int(refused[1])).words() in page and "It is stored as" not in page
    else:
        assert "Accepted." in page and told.status == 0
    by_page = Desk(site.desk.folder.parent, site.desk.program.path.as_posix())
    assert by_page.good("list").out == by_word.good("list").out
    assert (
        by_page.good("show", DAM).out.partition("history")[0] == by_word.good("show", DAM).out.partition("history")[0]
    )
    assert by_page.commands() == by_word.commands()
    by_page.good("verify")


@pytest.mark.parametrize(
    "kind, fields, told",
    [
        ("birth", BIRTH | {"id": " "}, "an animal needs an id"),
        ("birth", BIRTH | {"day": "01.03.2024"}, "isn't written as 2001-03-01"),
        ("birth", BIRTH | {"day": "2199-12-31"}, "the day 2199-12-31 is after today"),
        ("birth", BIRTH | {"day": "0001-01-01"}, "1-01-01 is too long ago: a book takes days from 1900-01-01 to today"),
        ("exit", {"id": DAM, "day": "1899-12-31"}, "the day 1899-12-31 is too long ago"),
        ("birth", BIRTH | {"id": "\0"}, "'' has an invisible character in it"),
        ("birth", BIRTH | {"id": "NEW\x1b-1"}, "'NEW-1' has an invisible character in it"),
        ("transfer", {"id": DAM, "day": "2024-05-01", "to": "\u202eMill"}, "'Mill' has an invisible character in it"),
        ("birth", BIRTH | {"id": "NN"}, "'NN' is a word for an unknown parent"),
        ("birth", BIRTH | {"sex": "x"}, "choose male or female"),
        ("birth", BIRTH | {"sire": "GK-10/294"}, "is GK-10/294b"),
        ("exit", {"id": "", "day": "2024-05-01"}, "the animal is missing"),
        ("exit", {"id": "<nobody>", "day": "2024-05-01"}, "the book has no animal '<nobody>'"),
        ("transfer", {"id": DAM, "day": "2024-05-01", "to": " "}, "the new owner is missing"),
    ],
)
def test_mistakes(site: Site, kind: str, fields: dict[str, str], told: str) -> None:
    """Where a field can't be read nothing is filed, and the form has what was written."""
    answer = site.post(f"/file/{kind}", **fields)
    text = answer.get_data(as_text=True)
    assert answer.status_code == 400 and told in shown(text)
    for name, written in fields.items():
        if name not in ("sex",):
            assert f'name="{name}"' in text
    assert f'value="{fields["day"]}"' in text
    with site.desk.opened() as book:
        assert book and book.change and book.change.number == 1


@pytest.mark.parametrize("language, told", [
    ("de", "Der Tag 01.01.0001 liegt zu weit zurück: ein Herdbuch nimmt Tage vom 01.01.1900 bis heute."),
    ("fr", "La date 01/01/0001 est trop ancienne : un livre prend les dates du 01/01/1900 à aujourd'hui."),
])  # fmt: skip
def test_days_of_a_book(site: Site, language: str, told: str) -> None:
    """Which days a book takes is said in each language."""
    site.get(f"/language/{language}")
    answer = site.post("/file/birth", **BIRTH | {"day": "0001-01-01"})
    assert answer.status_code == 400 and told in shown(answer.get_data(as_text=True)).replace("\xa0", " ")


def test_sent_twice(site: Site) -> None:
    """A form that is sent again, also at once, is filed once, and shows what was answered; a form that the page shows
    anew is filed anew. One without a token isn't done."""
    fields = {"id": "NEW-1", "day": "2024-06-01", "form": form_in(site.page("/file/exit"))}
    site.post("/file/birth", **BIRTH)
    with concurrent.futures.ThreadPoolExecutor(4) as pool:
        browsers = [Site(site.desk, site.app) for _ in range(4)]
        answers = [pool.submit(one.post, "/file/exit", **fields) for one in browsers]
    assert [one.result().headers["Location"] for one in answers] == ["/answer/3"] * 4
    page = site.page("/history/2/undo")
    undo = {"form": form_in(page), **looked_in(page)}
    assert [site.post("/history/2/undo", **undo).headers["Location"] for _ in range(2)] == ["/history/4"] * 2
    # what was undone isn't filed by the old form
    assert site.post("/file/exit", **fields).headers["Location"] == "/answer/3"
    assert site.post("/file/exit", id="NEW-1", day="2024-06-01").headers["Location"] == "/answer/5"
    for none in "", "x", "<script>" * 9:
        assert site.post("/file/exit", id=DAM, day="2024-06-01", form=none).status_code == 400
    with site.desk.opened() as book:
        assert book and book.change and book.change.number == 5
    # it is told that the book doesn't have it, until that is undone too
    told = "It was taken back by Change 4"
    assert all(told in shown(site.page(page)) for page in ("/answer/3", "/history/3"))
    assert "It was taken back by" not in shown(site.page("/answer/2"))
    site.post("/history/3/undo", looked=site.looked())
    assert not any("It was taken back by" in shown(site.page(page)) for page in ("/answer/3", "/history/3"))


def test_gone_back_to(site: Site) -> None:
    """A form that somebody goes back to, and writes another animal into, is filed too; as it was it isn't."""
    token = form_in(site.page("/file/birth"))
    twin = BIRTH | {"id": "NEW-2", "name": "Bertold", "sex": "M"}
    for fields, answered in (BIRTH, "/answer/2"), (twin, "/answer/3"), (BIRTH, "/answer/2"), (twin, "/answer/3"):
        assert site.post("/file/birth", form=token, **fields).headers["Location"] == answered
    assert "NEW-2" in shown(site.page("/answer/3"))
    with site.desk.opened() as book:
        assert book and book.change and book.change.number == 3
        assert {"NEW-1", "NEW-2"} <= book.society_records.keys()


@pytest.mark.parametrize("language, told", [
    ("en", f"its dam {DAM} was 57 days old at its birth, less than 180"),
    ("de", f"Mutter {DAM} war bei der Geburt 57 Tage alt, weniger als 180"),
    ("fr", f"Mère {DAM} avait 57 jours à la naissance, moins de 180"),
])  # fmt: skip
def test_young_dam(site: Site, society_desk: Desk, language: str, told: str) -> None:
    """A birth of a dam that was very young is told before it is filed, as a sheet's is; what was written stays. It is
    filed all the same by its button, and not by that of another warning."""
    site.get(f"/language/{language}")
    written = BIRTH | {"day": "2018-01-17"}
    seen = ""
    for _ in range(2):
        answer = site.post("/file/birth", **written, anyway=seen and f"{seen[1:]}0")
        text = answer.get_data(as_text=True)
        assert answer.status_code == 400 and told.casefold() in shown(text).casefold()
        assert written_in(text).items() >= {"id": "NEW-1", "day": "2018-01-17", "dam": DAM}.items()
        seen = re.findall('name="anyway" value="([^"]+)"', text)[0]
    with site.desk.opened() as book:
        assert book and book.change and book.change.number == 1
    young = site.page(site.post("/file/birth", **written, anyway=seen).headers["Location"])
    assert in_each("Accepted.")[("en", "de", "fr").index(language)] in shown(young)
    assert told.casefold() in shown(young).casefold() and told.casefold() in shown(site.page("/history/2")).casefold()
    # her parents are filed anew: told too
    site.post("/file/parents", id="NEW-1", sire="0", dam="0")
    again = site.post("/file/parents", id="NEW-1", sire="0", dam=DAM).get_data(as_text=True)
    assert told.casefold() in shown(again).casefold()
    # old enough
    later = site.page(site.post("/file/birth", **BIRTH | {"id": "NEW-2", "day": "2018-05-20"}).headers["Location"])
    assert "180" not in shown(later)


@pytest.mark.parametrize("kind, owner, told", [
    ("transfer", "Oak Lodg", "das Herdbuch hatte keinen Besitzer „Oak Lodg“: ist „Oak Lodge“ gemeint?"),
    ("birth", "oak-lodge", "das Herdbuch hatte keinen Besitzer „oak-lodge“: ist „Oak Lodge“ gemeint?"),
    ("transfer", "Oak Lodge", ""), ("transfer", "Oak Lodge 2", ""), ("birth", "Hof am See", ""), ("birth", "", ""),
])  # fmt: skip
def test_new_owner(site: Site, taken_society: Desk, tmp_path: pathlib.Path, kind: str, owner: str, told: str) -> None:
    """An owner whom the book didn't have is filed, and told where he is near another; the word tells the same."""
    site.get("/language/de")
    given = {"to": owner, "id": DAM, "day": "2024-05-01"} if kind == "transfer" else BIRTH | {"owner": owner}
    text = site.post(f"/file/{kind}", **given).get_data(as_text=True)
    assert (told in shown(text)) if told else (in_each("Accepted.")[1] in shown(site.page("/answer/2")))
    words = (
        ["transfer", DAM, "--day", "2024-05-01", "--to", owner] if kind == "transfer" else [*BIRTH_WORDS[:-1], owner]
    )
    by_word = taken_society.copy_to(tmp_path / "by word").run(*words)
    assert by_word.status == bool(told)
    assert ("had no owner" in by_word.err) == ("is 'Oak Lodge' meant?" in by_word.err) == bool(told)


def test_files_beside(site: Site) -> None:
    """The files beside the database have what a form filed."""
    site.post("/file/exit", id=DAM, day="2024-05-01")
    until = time.monotonic() + SECONDS
    while "2024-05-01" not in (site.desk.folder / "commands.csv").read_text(encoding="utf-8"):
        assert time.monotonic() < until
        time.sleep(0.05)


@pytest.mark.parametrize("language, at", [("de", 1), ("fr", 2)])
def test_languages(site: Site, language: str, at: int) -> None:
    """The answer is in the language that was chosen."""
    site.get(f"/language/{language}")
    site.post("/file/exit", id=DAM, day="2024-05-01")
    page = site.page(site.post("/file/exit", id=DAM, day="2024-05-02").headers["Location"])
    assert f'<html lang="{language}">' in page
    # so is the day of an animal that is offered below a field
    offered = site.get(f"/search?words={DAM}").get_json() or []
    assert [one["born"] for one in offered] == ["21.11.2017" if at == 1 else "21/11/2017"]
    assert in_each("Refused.")[at] in shown(page) and in_each("it has left already")[at] in shown(page)


def test_reason_of_exit(site: Site) -> None:
    """Why an animal left is asked with its exit."""
    form = {"id": "GK-17/472c", "day": "2024-05-01", "reason": "slaughtered"}
    answer = site.post("/file/exit", **form)
    assert answer.status_code == 302
    change = site.page(answer.headers["Location"].replace("answer", "history"))
    assert "reason of the exit: slaughtered" in shown(change)
    assert "slaughtered" in shown(site.page("/year/2024"))
