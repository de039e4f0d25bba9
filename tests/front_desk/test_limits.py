"""The program is always run with a limit of memory and of time, and what it leaves then is told."""
from __future__ import annotations

import errno
import io
import os
import pathlib
import signal
import subprocess
import sys
from typing import Any

import pytest

from front_desk.desk import TOP, Desk
from gudokeyi.domain.messages import Mistake
from gudokeyi.engine import program as herdbook, session

LIMITS = (herdbook.MOST_BYTES, herdbook.MOST_SECONDS)
# a session answers in time, or is ended; however long it stays it has no other limit of time
OF_SESSION = (session.MOST_BYTES, -1)
# they are set from outside, and waited for
SEEN = f"""
import os, resource, sys, time
until, limits = time.monotonic() + 60, ()
wanted = {OF_SESSION} if "session" in sys.argv else {LIMITS}
while limits != wanted and time.monotonic() < until:
    limits = tuple(resource.getrlimit(one)[0] for one in (resource.RLIMIT_AS, resource.RLIMIT_CPU))
    time.sleep(0.01)
"""
# takes more memory than it may, and says so as the program does
HUNGRY = f"""{SEEN}
try:
    eaten = bytearray({herdbook.MOST_BYTES + (1 << 30)})
except MemoryError:
    sys.exit("herdbook: no memory")
"""
# writes its limits, and is the program then
TELLING = f"""{SEEN}
print(*limits, file=open("limits", "a"))
os.execv("PROGRAM", ["PROGRAM", *sys.argv[1:]])
"""
# is never done: in the one it waits, in the other it has no end of work
WAITING = "import time; time.sleep(600)"
BUSY = "while True: pass"
# a call of each kind that asks the program
CALLS = [
    ["import", "--pedigree", str(TOP / "examples/mrode.txt"), "--book", "other"],
    ["parents", "3", "--dam", "0"],
    ["mating", "--dam", "2"],
    ["inverse", "--matrix-market", "inverse.mtx"],
]


def stand_in(room: pathlib.Path, text: str) -> str:
    """A program that stands for `herdbook`."""
    path = room / "stand-in"
    path.write_text(f"#!{sys.executable}\n{text}\n", encoding="utf-8")
    path.chmod(0o755)
    return str(path)


@pytest.mark.parametrize("words", CALLS, ids=[words[0] for words in CALLS])
def test_limits(mrode_desk: Desk, program: str, words: list[str]) -> None:
    """Each run of the program has both, and a session that of memory."""
    done = mrode_desk.run(*words, program=stand_in(mrode_desk.room, TELLING.replace("PROGRAM", program)))
    assert done.status == 0, f"{words}: {done}"
    wanted = OF_SESSION if words[0] == "parents" else LIMITS
    assert {tuple(map(int, line.split())) for line in mrode_desk.text("limits").splitlines()} == {wanted}


def test_too_much_memory(mrode_desk: Desk) -> None:
    hungry = stand_in(mrode_desk.room, HUNGRY)
    before = mrode_desk.files()
    done = mrode_desk.run("undo", program=hungry)
    told = f"no memory (it may use {herdbook.MOST_BYTES >> 30} GB of memory). Nothing is changed"
    assert done.status == 1 and f"the program `herdbook file` can't do it: {told}" in done.err, f"{done}"
    assert mrode_desk.files() == before


def test_a_new_book_is_not_begun_where_the_program_fails(desk: Desk, program: str) -> None:
    """Also where it fails at the coefficients, which it is asked for last."""
    fails = "import os, sys\nif 'inbreeding' in sys.argv:\n    sys.exit('herdbook: no memory')\n"
    failing = stand_in(desk.room, f"{fails}os.execv({program!r}, [{program!r}, *sys.argv[1:]])")
    desk.write("sheet.csv", "id;sex;birth;sire;dam\na;F;2001-01-01;;\n")
    done = desk.run("import", "sheet.csv", program=failing)
    assert done.status == 1 and "the program `herdbook inbreeding` can't do it: no memory" in done.err
    assert not (desk.room / "book").exists()


def test_no_room_for_a_command_file(tmp_path: pathlib.Path, monkeypatch: pytest.MonkeyPatch) -> None:
    def full(file: io.FileIO, text: bytes) -> None:
        raise OSError(errno.ENOSPC, os.strerror(errno.ENOSPC))

    monkeypatch.setenv("HERDBOOK", stand_in(tmp_path, BUSY))
    monkeypatch.setattr(herdbook, "write_all", full)
    with pytest.raises(Mistake, match="can't do it: No space left on device: nothing is changed$"):
        herdbook.Herdbook().run(["file"], b"")


@pytest.mark.parametrize("text", [WAITING, BUSY], ids=["waiting", "busy"])
def test_too_long(text: str, tmp_path: pathlib.Path, monkeypatch: pytest.MonkeyPatch) -> None:
    """It is ended, and nothing of it stays."""
    monkeypatch.chdir(tmp_path)
    monkeypatch.setenv("HERDBOOK", stand_in(tmp_path, text))
    monkeypatch.setattr(herdbook, "MOST_SECONDS", 2)
    begun, start = list[subprocess.Popen[bytes]](), herdbook.Herdbook.start

    def kept(*values: Any, **named: Any) -> subprocess.Popen[bytes]:
        begun.append(start(*values, **named))
        return begun[-1]

    monkeypatch.setattr(herdbook.Herdbook, "start", kept)
    with pytest.raises(Mistake, match="was ended, since it wasn't done after 0 minutes: .* Nothing is changed"):
        herdbook.Herdbook().run(["file"], b"")
    (process,) = begun
    assert process.returncode is not None and process.stderr and process.stderr.closed


def test_no_end_of_work(tmp_path: pathlib.Path, monkeypatch: pytest.MonkeyPatch) -> None:
    """The time that it works counts, though it is waited for longer."""
    monkeypatch.chdir(tmp_path)
    monkeypatch.setenv("HERDBOOK", stand_in(tmp_path, BUSY))
    program = herdbook.Herdbook()
    running = program.start(["file"], -1, -1, most_seconds=1)
    running.communicate()
    assert running.returncode == -signal.SIGXCPU
