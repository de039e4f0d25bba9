"""Whether a book is whole, seen from outside the front desk, and runs of it that are ended or hindered."""
from __future__ import annotations

import contextlib
import os
import pathlib
import random
import signal
import sqlite3
import subprocess
from typing import Callable

from front_desk import prepared
from front_desk.desk import TOP, Desk, Done

SECONDS = 300
FLOCK = "id,sex,born,sire,dam,owner,exit\n" + "".join(
    f"a{at},{'MF'[at % 2]},{2000 + at // 4}-01-{at + 1:02},{f'a{at - 4 - at % 2}' if at > 7 else ''},"
    f"{f'a{at - 3 - at % 2}' if at > 7 else ''},farm {at % 3},\n"
    for at in range(16)
)
GROWN = FLOCK.replace("a3,F,2000-01-04,,,farm 0,", "a3,F,2000-01-05,,,farm 1,2015-02-01") + "b,M,2010-01-01,a8,a9,x,\n"


def changes_of(folder: pathlib.Path) -> int:
    """How many changes a book has; it is whole, as far as SQLite sees."""
    path = folder / "book.sqlite"
    if not path.exists():
        return 0
    with contextlib.closing(sqlite3.connect(path)) as connection:
        assert connection.execute("PRAGMA integrity_check").fetchall() == [("ok",)]
        assert connection.execute("PRAGMA foreign_key_check").fetchall() == []
        if not connection.execute("SELECT 1 FROM sqlite_schema").fetchone():
            return 0
        count, last = connection.execute("SELECT count(*), max(change) FROM change").fetchone()
        assert count == (last or 0)
        return int(count)


def known(desk: Desk, **more: str) -> dict[str, str]:
    kept = {name: os.environ[name] for name in ("PATH", "GUDOKEYI_NUMBERS")}
    return {**kept, "HERDBOOK": desk.program, "LANG": "C", **more}


def start(desk: Desk, *words: str, before: Callable[[], None] | None = None, **more: str) -> subprocess.Popen[bytes]:
    """Begins a run, in a group of processes of its own."""
    return subprocess.Popen(
        [str(TOP / "gudokeyi"), *words], cwd=desk.room, env=known(desk, **more), stdout=subprocess.PIPE,
        stderr=subprocess.PIPE, start_new_session=True, preexec_fn=before,
    )  # fmt: skip


def ended(run: subprocess.Popen[bytes]) -> Done:
    out, err = run.communicate(timeout=SECONDS)
    return Done(run.returncode, out.decode(), err.decode())


def run(desk: Desk, *words: str, before: Callable[[], None] | None = None, **more: str) -> Done:
    """A call, in a process of which something is set before."""
    if before:
        return ended(start(desk, *words, before=before, **more))
    done = prepared.run(words, desk.room, known(desk, **more))
    return Done(done.returncode, done.stdout.decode(), done.stderr.decode())


def kill_within(run: subprocess.Popen[bytes], seconds: float) -> None:
    """Kills a run and all that it began, at a random moment of so many seconds."""
    with contextlib.suppress(subprocess.TimeoutExpired):
        run.wait(random.uniform(0, seconds))
    with contextlib.suppress(ProcessLookupError):
        os.killpg(run.pid, signal.SIGKILL)
    run.communicate()


def told_truly(done: Done, before: int, after: int) -> None:
    """A run says whether its change is made: by its status, and by a sentence where it isn't."""
    if done.status == 0:
        assert after == before + 1, f"{done}"
    else:
        assert after == before, f"{done}"
        assert "nothing is changed" in done.err or "can't be written" in done.err, f"{done}"
    assert "Traceback" not in done.err, f"{done}"
