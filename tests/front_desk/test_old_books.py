"""A book that version 0.12 made, `books/0.12`, is read as it was, goes on, and has its findings by their stored names.
The folder of a book of version 0.11 is that of `old_folder`."""
from __future__ import annotations

import contextlib
import dataclasses
import importlib
import json
import pathlib
import re
import shutil
import sqlite3
import subprocess
from typing import Any

import pytest

from front_desk.desk import TOP, Desk
from gudokeyi.domain.changes import StoredFinding
from gudokeyi.domain.findings import KINDS
from gudokeyi.reconcile.stored_findings import entry_of, modules_of_findings, told_of

MADE = pathlib.Path(__file__).resolve().parent / "books/0.12"
CHANGES = range(1, 8)


@pytest.fixture
def kept_desk(desk: Desk) -> Desk:
    """A desk with the book that version 0.12 made."""
    (desk.room / "book").mkdir()
    shutil.copy(MADE / "book.sqlite", desk.room / "book")
    return desk


def without_times(text: str) -> str:
    return re.sub(r"^(\d+)  \S+ \S+  ", r"\1  ", text, flags=re.MULTILINE)


def test_as_it_was(kept_desk: Desk) -> None:
    """Its animals and its history, with what was found of its sheets, are told as version 0.12 told them."""
    assert kept_desk.good("list").out == (MADE / "list.csv").read_text(encoding="utf-8")
    told = "".join(kept_desk.good("history", str(change)).out for change in CHANGES)
    assert without_times(told) == without_times((MADE / "history.txt").read_text(encoding="utf-8"))
    assert "7 changes" in kept_desk.good("verify").out


def test_goes_on(kept_desk: Desk) -> None:
    """Commands are filed in it and taken back, and what it remembers of its sheet is used for another one."""
    before = kept_desk.good("list").out
    parents = "--sire", "d", "--dam", "c"
    kept_desk.good("birth", "new", "--sex", "f", "--day", "2014-01-01", *parents, "--owner", "Nord", "--anyway")
    kept_desk.good("undo")
    assert kept_desk.good("list").out == before
    kept_desk.write("sheet.csv", "Tag;S;born;sire;dam;Hof\nz;F;2015-01-01;d;c;Nord\n")
    assert "owner from 'Hof'" in kept_desk.good("import", "sheet.csv", "--anyway").told
    kept_desk.good("verify")


def test_reason_of_an_exit(kept_desk: Desk) -> None:
    """It is kept beside the day, which no table of version 0.12 could."""
    titles = "Tag;S;born;sire;dam;Hof;Abgang am;Abgangsgrund\n"
    kept_desk.write("sheet.csv", titles + "z;F;2015-01-01;d;c;Nord;2020-01-01;verendet\n")
    kept_desk.good("import", "sheet.csv", "--anyway")
    assert "exit          2020-01-01 (in the sheet: verendet)\n" in kept_desk.good("show", "z").out
    kept_desk.good("verify")


VIEWS = {
    "animals": (
        "id number name sex born birth_is_inferred sire dam sire_number dam_number embryo herd owner owner_since left_on "
        "has_left exit_reason castrated standing fraction percent"
    ),
    "commands": "step kind number day sire dam from_herd to_herd embryo refusal",
    "coefficients": "id number fraction percent",
}  # fmt: skip


def test_views(kept_desk: Desk) -> None:
    """Others read it by views, of which no column goes: its animals as they are listed, and its commands as they are
    exported."""
    listed = kept_desk.listed("list", "--columns", "+sire,dam,owner,name,sex")
    exported = kept_desk.commands()
    with contextlib.closing(sqlite3.connect(kept_desk.room / "book/book.sqlite")) as connection:
        for view, columns in VIEWS.items():
            assert [name for _, name, *_ in connection.execute(f"PRAGMA table_info({view})")] == columns.split()
        wanted = "id, number, name, sex, ifnull(sire, ''), ifnull(dam, ''), ifnull(owner, ''), fraction, percent"
        found = connection.execute(f"SELECT {wanted} FROM animals ORDER BY born, number").fetchall()
        titles = ("id", "number", "name", "sex", "sire", "dam", "owner", "coefficient", "percent")
        assert found == [tuple(row[title].removesuffix(" (inferred)") for title in titles) for row in listed]
        assert connection.execute("SELECT id, number, fraction, percent FROM coefficients").fetchall() == [
            (row["id"], row["number"], row["coefficient"], row["percent"]) for row in listed
        ]
        steps = connection.execute("SELECT * FROM commands").fetchall()
    assert [step for step, *_ in steps] == [*range(1, len(exported) + 1)]
    for (_, kind, number, day, sire, dam, giver, taker, embryo, _), line in zip(steps, exported):
        parents = [parent or "0" for parent in (sire, dam)] if kind in ("birth", "parents") else ["", ""]
        cells = [kind, number, day or "", *parents, giver or "", taker or "", "1" if embryo else ""]
        assert ",".join(map(str, cells)) == line


def test_findings(kept_desk: Desk) -> None:
    """Each finding that it stores is read, and would be stored as it is, with empty fields that came since."""
    with contextlib.closing(sqlite3.connect(kept_desk.room / "book/book.sqlite")) as connection:
        rows = connection.execute("SELECT kind, part, line, id, fields FROM told").fetchall()
    found = [
        StoredFinding(kind, part, line, id, tuple(json.loads(fields).items())) for kind, part, line, id, fields in rows
    ]
    assert len({one.kind for one in found}) > 15
    for one in found:
        again = told_of(entry_of(one))
        assert again == one._replace(fields=again.fields) and {*one.fields} <= {*again.fields}
        assert not any(value for _, value in {*again.fields} - {*one.fields})


def test_codes() -> None:
    """Each kind of finding has a code of its own, and each that version 0.12 stored is still one; what a field is
    stored as is said of fields that there are."""
    for module in modules_of_findings():
        importlib.import_module(module)
    kinds: list[Any] = [kind for kind in KINDS.values() if dataclasses.is_dataclass(kind)]
    assert len({kind.code for kind in kinds}) == len(kinds) and all("code" in kind.__dict__ for kind in kinds)
    assert {*(MADE / "codes.txt").read_text(encoding="utf-8").splitlines()} <= KINDS.keys()
    renamed = {kind.code: kind.stored_fields for kind in kinds if kind.stored_fields}
    assert renamed.keys() == {"added as parent", "castrated sire", "parent refused"}
    assert all(
        names.keys() <= {field.name for field in dataclasses.fields(KINDS[code])} for code, names in renamed.items()
    )


def test_words_of_before(desk: Desk) -> None:
    """`take` is another spelling of `import`, and `society/society` of `gudokeyi`, which tells the new one."""
    assert desk.good("take", "--help").out == desk.good("import", "--help").out
    called = subprocess.run(
        [TOP / "society/society", "import", "--help"], capture_output=True, text=True, cwd=desk.room
    )
    assert called.stdout == desk.good("import", "--help").out and called.returncode == 0
    assert f"{TOP}/gudokeyi" in called.stderr and len(called.stderr.splitlines()) == 1
