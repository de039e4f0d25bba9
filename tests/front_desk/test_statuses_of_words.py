"""With which status each word ends: a script reads no message."""
from __future__ import annotations

import os
import subprocess
import sys

import pytest

from front_desk.desk import TOP, Desk
from gudokeyi.store.database import connect


@pytest.mark.parametrize(("status", "words"), [
    (0, ["list"]),
    (1, ["show", "nobody"]), (1, ["list", "--book", "elsewhere"]), (1, ["import", "sheet.csv", "--columns", "id=nothing"]),
    (1, ["birth", "new", "--sex", "f", "--day", "2012-03-04", "--sire", "nobody"]),
    (1, ["undo", "--change", "1"]),
    (2, []), (2, ["lits"]), (2, ["list", "--born", "never"]), (2, ["birth", "new"]), (2, ["mating"]), (2, ["parents", "a0"]),
    (2, ["history", "1", "2"]), (2, ["import"]), (2, ["kinship"]),
    (2, ["list", "--out=--"]),
    (3, ["birth", "a0", "--sex", "f", "--day", "2012-03-04"]), (3, ["correct", "a0", "--sire", "a9"]),
    (3, ["mating", "--dam", "a0", "a1"]),
])  # fmt: skip
def test_statuses(flock_desk: Desk, status: int, words: list[str]) -> None:
    flock_desk.good("exit", "a8", "--day", "2012-03-04")
    done = flock_desk.run(*words)
    assert done.status == status and bool(done.err) == (status > 0), f"{words}: {done}"


# a call that waits for nobody
AT_ONCE = """
import sys
from gudokeyi.domain import waiting
waiting.MOST_SECONDS = 0
from gudokeyi.cli.main import main
sys.exit(main(sys.argv[1:]))
"""


def test_busy(flock_desk: Desk) -> None:
    """Somebody else changes the book for longer than a change waits."""
    env = {**os.environ, "HERDBOOK": flock_desk.program, "PYTHONPATH": str(TOP / "src")}

    def asked(*words: str) -> subprocess.CompletedProcess[str]:
        command = [sys.executable, "-c", AT_ONCE, *words]
        return subprocess.run(command, cwd=flock_desk.room, env=env, capture_output=True, text=True)

    other = connect(flock_desk.room / "book" / "book.sqlite", "rw")
    other.execute("BEGIN IMMEDIATE")
    for words in ["exit", "a8", "--day", "2012-03-04"], ["import", "sheet.csv"], ["settings", "--name", "Flock"]:
        done = asked(*words)
        assert done.returncode == 4 and "is being changed by somebody else" in done.stderr, f"{words}: {done}"
    other.close()
    # one that waits for a moment, as calls do: a connection of its own that ends keeps the book to itself just so long
    flock_desk.good("exit", "a8", "--day", "2012-03-04")
