"""Processes that are kept for the next look at a sheet: which are, how long, and that nothing old is told by one."""
from __future__ import annotations

import collections
import os
import pathlib
import random
from collections.abc import Iterator

import pytest

from front_desk.desk import TOP, Desk
from front_desk.society_lists import GOATS, HORSES, Style, with_planted
from web.looks import PAIR, TITLES
from web.site import Site, shown
from gudokeyi.domain.changes import Option
from gudokeyi.domain.findings import COLUMNS
from gudokeyi.services.cache import StateKept
from gudokeyi.services.sheet_reading import LastReading
from gudokeyi.web import sheet_work, worker_processes
from gudokeyi.web.files import Upload
from gudokeyi.web.forms import SHEET_FIELDS
from gudokeyi.web.sheet_work import Chosen, Look, looked_at
from gudokeyi.web.views.findings import choose, field_of, suggestions_of
from gudokeyi.web.work_places import BREED, LOOKING
from gudokeyi.web.worker_processes import MOST_KEPT
from gudokeyi.web.workers import Job, Jobs, Stage


@pytest.fixture(autouse=True)
def of_tests(monkeypatch: pytest.MonkeyPatch) -> None:
    """The processes find what these tests do."""
    monkeypatch.setenv("PYTHONPATH", str(TOP / "tests"))


def process_id(_: object) -> int:
    return os.getpid()


def fallen(_: object) -> int:
    raise ValueError("a fault of the work")


@pytest.fixture
def jobs() -> Iterator[Jobs]:
    found = Jobs()
    yield found
    found.end()


def done(job: Job) -> object:
    assert job.is_over.wait(30)
    return job.value if job.stage is Stage.DONE else None


def is_there(process: object) -> bool:
    """Its entry, also where nobody waited for its end, would be there."""
    return isinstance(process, int) and pathlib.Path(f"/proc/{process}").exists()


def test_kept_for_the_next_look(jobs: Jobs, monkeypatch: pytest.MonkeyPatch) -> None:
    """The next look at a sheet is done by the process of the last one, another sheet and other work by others."""
    first = done(jobs.of((LOOKING, "a", 1), process_id, ()))
    assert done(jobs.of((LOOKING, "a", 2), process_id, ())) == first and is_there(first)
    other = done(jobs.of((LOOKING, "b", 1), process_id, ()))
    assert other != first and not is_there(done(jobs.of((BREED, "a", 1), process_id, ())))
    # of more sheets those that were looked at last
    others = [done(jobs.of((LOOKING, at, 1), process_id, ())) for at in range(MOST_KEPT)]
    assert all(map(is_there, others)) and not is_there(first) and not is_there(other)
    monkeypatch.setattr(worker_processes, "SECONDS_KEPT", 0)
    jobs.kept.end_unused()
    assert not any(map(is_there, others))


def test_fault_in_a_kept_process(jobs: Jobs) -> None:
    """One that fell, or was killed since, isn't asked again."""
    first = done(jobs.of((LOOKING, "a", 1), process_id, ()))
    assert done(jobs.of((LOOKING, "a", 2), fallen, ())) is None and not is_there(first)
    second = done(jobs.of((LOOKING, "a", 3), process_id, ()))
    assert isinstance(second, int)
    os.kill(second, 9)
    os.waitid(os.P_PID, second, os.WEXITED | os.WNOWAIT)
    third = done(jobs.of((LOOKING, "a", 4), process_id, ()))
    assert third not in (None, second)
    jobs.end()
    assert not is_there(third)


def press(site: Site, address: str, **options: str) -> str:
    """What the page says behind something else that is chosen."""
    return shown(site.page(site.post(f"{address}/columns", **options).headers["Location"]))


def test_nothing_old(empty_site: Site, desk: Desk) -> None:
    """What others did to the book since the last look, and another text in the file, are in the next one."""
    site = empty_site
    address = site.drop("herde.csv", (TITLES + PAIR).encode())
    assert "The book would have 3 animals" in shown(site.page(address))
    desk.take(TITLES + PAIR.replace("Huber", "Meier") + "044;Neu;w;2004-01-01;001;002;Meier\n")
    found = press(site, address, anyway="1")
    assert "The book would have 4 animals" in found and "owner: Huber, before Meier" in found
    desk.good("correct", "001", "--name", "Moritz")
    assert "Moritz" in press(site, address, unknown="zzz")
    [upload] = site.desk.uploads.found.values()
    upload.path.write_bytes((TITLES + PAIR.replace("Eva", "Else")).encode())
    assert "name: Else, before Eva" in press(site, address, unknown="zzzz")


CHOICES: tuple[dict[str, str], ...] = (
    {}, {"anyway": "1"}, {"unknown": "Chäspi"}, {"drop_gone": "1", "known": "Chäspi"}, {"month_first": "1"}, {},
    {"owner": "Caduff=Kaduff"}, {"owner": "Caduff=Kadufff"}, {"owner": "Queloz=Kaloz"}, {"breed": "SKU"}, {},
)  # fmt: skip


@pytest.mark.parametrize("style", [GOATS, HORSES])
@pytest.mark.parametrize("has_book", [False, True])
def test_same_looks(
    desk: Desk, program: str, monkeypatch: pytest.MonkeyPatch, style: Style, has_book: bool
) -> None:
    """A process that looked before sees what one sees that begins, whatever is chosen in turn."""
    monkeypatch.setenv("HERDBOOK", program)
    monkeypatch.setattr(sheet_work, "bound_look", lambda: None)
    text = with_planted(style).text()
    if has_book:
        desk.take(text, "--anyway")
    path = desk.room / desk.write("liste.csv", text.replace("Caduff", "Cadufff"))

    def look(options: dict[str, str], anew: bool) -> Look:
        if anew:
            monkeypatch.setattr(sheet_work, "STATE", StateKept())
            monkeypatch.setattr(sheet_work, "READING", LastReading())
        return looked_at(desk.room / "book", path, Chosen.of({}, options), (), lambda _: None)

    fresh = [look(options, anew=True) for options in CHOICES]
    assert [look(options, anew=False) for options in CHOICES] == fresh and len({*map(str, fresh)}) > 2


def test_same_looks_with_new_tags(desk: Desk, program: str, monkeypatch: pytest.MonkeyPatch) -> None:
    """So it is where a dam of several gets a new tag, another one, that of another animal which gets hers, or none."""
    monkeypatch.setenv("HERDBOOK", program)
    monkeypatch.setattr(sheet_work, "bound_look", lambda: None)
    planted = with_planted(GOATS)
    desk.take(planted.text(), "--anyway")
    ids, dams = ([row[at] for row in planted.rows] for at in (0, 5))
    (dam, _), (other, _) = collections.Counter(one for one in dams if one and one in ids).most_common(2)
    path = desk.room / desk.write("liste.csv", planted.text().replace(dam, "NEU 1"))
    tags = "", f"{dam}=NEU 1", "", f"{dam}=NEU 2", f"{dam}={other},{other}={dam}", f"{dam}=NEU 1,{other}=NEU 2", ""
    choices = [{"new_tag": tag} if tag else {} for tag in tags]
    choices[3] |= {"owner": "Caduff Reto=Kaduff Reto"}

    def look(options: dict[str, str], anew: bool) -> Look:
        if anew:
            monkeypatch.setattr(sheet_work, "STATE", StateKept())
            monkeypatch.setattr(sheet_work, "READING", LastReading())
        return looked_at(desk.room / "book", path, Chosen.of({}, options), (), lambda _: None)

    fresh = [look(options, anew=True) for options in choices]
    assert [one.told for one in fresh] == [()] * len(choices) and len({*map(str, fresh)}) == 5
    assert [look(options, anew=False) for options in choices] == fresh


def test_same_looks_at_a_sheet_without_ids(desk: Desk, program: str, monkeypatch: pytest.MonkeyPatch) -> None:
    """One without a column of ids is told as such each time, until somebody names the column."""
    monkeypatch.setenv("HERDBOOK", program)
    monkeypatch.setattr(sheet_work, "bound_look", lambda: None)
    path = desk.room / desk.write("liste.csv", (TITLES + PAIR).replace("Ohrmarke", "Zeichen"))

    def look(columns: dict[str, str], options: dict[str, str], anew: bool) -> Look:
        if anew:
            monkeypatch.setattr(sheet_work, "STATE", StateKept())
            monkeypatch.setattr(sheet_work, "READING", LastReading())
        return looked_at(desk.room / "book", path, Chosen.of(columns, options), (), lambda _: None)

    titles = "", "", "Zeichen", ""
    chosen = [({"id": title}, {"unknown": f"Max {at}"}) for at, title in enumerate(titles)]
    fresh = [look(*one, anew=True) for one in chosen]
    assert [look(*one, anew=False) for one in chosen] == fresh
    assert [bool(one.obstacles) for one in fresh] == [True, True, False, True]


# how many buttons are pressed one after the other
PRESSED = 16


def buttons_of(look: Look, style: Style) -> list[list[Option]]:
    """What its findings suggest, and columns and words that somebody may choose besides."""
    _, name, sex, _, sire, _, owner, left, status = style.titles
    titles = {"name": name, "sex": sex, "sire": sire, "owner": owner, "exit": left, "status": status}
    columns = [Option(COLUMNS, f"{field}={title}") for field, title in titles.items()]
    # a column that isn't read is the one that changes most
    columns += [Option(COLUMNS, f"{field}=") for field in ("status", "exit", "status", "owner", "sex", "name")]
    words = (style.names[0], style.castrated, "Total")
    more = [Option(option, word) for option in ("--unknown", "--known", "--no-animal", "--animal") for word in words]
    more += [Option("--sexes", f"{style.castrated}=f"), Option("--apart", "300"), Option("--breed", "SKU")]
    found = suggestions_of([*look.obstacles, *(entry.finding for entry in look.entries)])
    options = [option for one in found for option in one.options]
    return [columns, more, [one for one in options if one.option == COLUMNS or field_of(one) in SHEET_FIELDS] or more]


@pytest.mark.parametrize("style", [GOATS, HORSES])
@pytest.mark.parametrize("has_book", [False, True])
def test_same_looks_behind_buttons(
    desk: Desk, program: str, monkeypatch: pytest.MonkeyPatch, style: Style, has_book: bool
) -> None:
    """Whichever buttons are pressed one after the other, the process that looked before sees after each what one sees
    that begins with all of them."""
    monkeypatch.setenv("HERDBOOK", program)
    monkeypatch.setattr(sheet_work, "bound_look", lambda: None)
    monkeypatch.setattr(sheet_work, "STATE", StateKept())
    monkeypatch.setattr(sheet_work, "READING", LastReading())
    text = with_planted(style).text()
    if has_book:
        desk.take(text, "--anyway")
    path = desk.room / desk.write("liste.csv", text.replace("Caduff", "Cadufff").replace("Queloz", "Quelloz"))
    draw, upload, seen = random.Random(f"{style.seed} {has_book}"), Upload("", "", path, 0), set[str]()
    for _ in range(PRESSED):
        chosen = Chosen.of(upload.columns, upload.options)
        kept = looked_at(desk.room / "book", path, chosen, (), lambda _: None)
        with monkeypatch.context() as anew:
            anew.setattr(sheet_work, "STATE", StateKept())
            anew.setattr(sheet_work, "READING", LastReading())
            assert looked_at(desk.room / "book", path, chosen, (), lambda _: None) == kept, chosen
        seen.add(str(kept))
        choose(upload, [draw.choice(draw.choice(buttons_of(kept, style)))])
    assert len(seen) > PRESSED // 2
