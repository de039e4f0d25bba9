"""Where the program is looked for, and who has it built."""
from __future__ import annotations

import io
import os
import pathlib
import sys

import pytest

import gudokeyi
from front_desk.desk import Desk
from gudokeyi.domain.messages import Mistake
from gudokeyi.engine import location
from gudokeyi.engine.program import Herdbook

OWN = f'#!/bin/sh\necho "herdbook {gudokeyi.__version__}"\n'
# words that ask the database alone
ASKED = [
    ["find", "GK-17"], ["show", "GK-17/472c"], ["history"], ["export"], ["settings"], ["pedigree", "GK-17/472c"],
    ["backup", "copy.sqlite"],
]  # fmt: skip


class Places:
    """A machine with places for the program. Each script answers its version; that of the clone notes whether a
    terminal was there."""

    def __init__(self, room: pathlib.Path, monkeypatch: pytest.MonkeyPatch) -> None:
        self.room, self.clone, self.package = room, room / "clone", room / "clone/src/gudokeyi"
        self.package.mkdir(parents=True)
        (room / "bin").mkdir()
        monkeypatch.setattr(location, "CLONE", self.clone)
        monkeypatch.setattr(location, "PACKAGE", self.package)
        monkeypatch.setattr(location, "FOR_ALL", room / "etc/program")
        monkeypatch.setenv("PATH", f"{room / 'bin'}:/usr/bin:/bin")
        monkeypatch.delenv("HERDBOOK", raising=False)

    def add(self, name: str, text: str = OWN) -> pathlib.Path:
        path = self.room / name
        path.parent.mkdir(parents=True, exist_ok=True)
        path.write_text(text)
        path.chmod(0o755)
        return path

    def add_clone(self, status: int) -> pathlib.Path:
        """A clone whose script has this status, and the program that it leaves."""
        self.add("clone/gudokeyi")
        self.add("clone/herdbook", f"#!/bin/sh\n[ -t 2 ] && echo asks >>{self.room}/noted\nexit {status}\n")
        return self.add("clone/crates/herdbook/out/herdbook")


@pytest.fixture
def places(tmp_path: pathlib.Path, monkeypatch: pytest.MonkeyPatch) -> Places:
    return Places(tmp_path, monkeypatch)


def test_order(places: Places, monkeypatch: pytest.MonkeyPatch) -> None:
    """Where HERDBOOK says, beside the package, on the path, built in the clone: the first of them that is there."""
    built = places.add_clone(0)
    assert location.located() == built
    on_path = places.add("bin/herdbook")
    assert location.located() == on_path
    beside = places.add("clone/src/gudokeyi/herdbook")
    assert location.located() == beside
    monkeypatch.setenv("HERDBOOK", str(said := places.add("said")))
    assert location.located() == said


def test_for_all(places: Places, monkeypatch: pytest.MonkeyPatch) -> None:
    """What the machine's administrator says holds for servers and terminals, but where HERDBOOK says otherwise."""
    places.add("bin/herdbook")
    own, other = places.add("own"), places.add("other")
    places.add("etc/program", f"{own}\n")
    assert location.located() == own
    monkeypatch.setenv("HERDBOOK", str(other))
    assert location.located() == other


def test_other_versions_on_the_path(places: Places) -> None:
    """A program of another version, or one that can't be run, is passed over, and so is the clone's own script."""
    built = places.add_clone(0)
    for text in (OWN.replace("herdbook ", "herdbook 0.0."), "#!/no/such/shell\n", "#!/bin/false\n"):
        places.add("bin/herdbook", text)
        assert location.located() == built
    (places.room / "bin/herdbook").unlink()
    (places.room / "bin/herdbook").symlink_to(places.clone / "herdbook")
    assert location.located() == built


def test_nowhere(places: Places) -> None:
    """Without a clone: what to install."""
    with pytest.raises(Mistake, match="neither beside this package nor on the path: install the package gudokeyi"):
        location.located()


def test_a_word_beside_the_program(places: Places) -> None:
    """Outside a clone the program may stand beside the word."""
    beside = places.add("clone/herdbook")
    assert location.located() == beside


@pytest.mark.parametrize("called", ["clone/gudokeyi", "another/program"])
def test_nothing_is_built_without_a_terminal(
    places: Places, monkeypatch: pytest.MonkeyPatch, called: str
) -> None:
    """One sentence says what to do, and the clone's script sees no terminal."""
    places.add_clone(1)
    monkeypatch.setattr(sys, "argv", [str(places.room / called)])
    with pytest.raises(
        Mistake, match="call .*/clone/herdbook --version at a terminal, which proves and builds it"
    ) as told:
        location.located()
    assert len(told.value.sentences) == 1
    assert not (places.room / "noted").exists()


@pytest.mark.parametrize(("called", "asks"), [("clone/gudokeyi", True), ("another/program", False)])
def test_only_the_word_of_the_clone_asks(
    places: Places, monkeypatch: pytest.MonkeyPatch, called: str, asks: bool
) -> None:
    """A program that imports the package has nothing built, also where it is called at a terminal."""
    places.add_clone(1)
    monkeypatch.setattr(sys, "argv", [str(places.room / called)])
    master, terminal = os.openpty()
    before = os.dup(2)
    try:
        os.dup2(terminal, 2)
        monkeypatch.setattr(sys, "stderr", io.TextIOWrapper(io.FileIO(os.dup(terminal), "w")))
        with pytest.raises(Mistake):
            location.located()
    finally:
        os.dup2(before, 2)
        for one in (before, master, terminal):
            os.close(one)
    assert (places.room / "noted").exists() == asks


def test_looked_for_once_it_is_needed(monkeypatch: pytest.MonkeyPatch) -> None:
    monkeypatch.setenv("HERDBOOK", "/nowhere/herdbook")
    program = Herdbook()
    with pytest.raises(Mistake, match="/nowhere/herdbook, the program of the herd book, isn't there"):
        program.file([])


@pytest.mark.parametrize("words", ASKED)
def test_questions_that_need_no_program(society_desk: Desk, words: list[str]) -> None:
    """They are answered, and what wasn't compared with the program's answers is told in one sentence."""
    done = society_desk.run(*words, program="/nowhere/herdbook")
    assert done.status == 0 and done.out
    told = "/nowhere/herdbook, the program of the herd book, isn't there: say where it is, as export HERDBOOK="
    assert not done.err or (done.err.startswith(f"gudokeyi: {told}") and done.err.count("\n") == 1)


def test_questions_that_need_one(society_desk: Desk) -> None:
    done = society_desk.run("verify", program="/nowhere/herdbook")
    assert done.status == 1 and "/nowhere/herdbook, the program of the herd book, isn't there" in done.err
