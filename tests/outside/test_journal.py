"""The client of `examples/` that keeps a journal beside a session: nothing that it answered is lost, whenever it is
ended."""
from __future__ import annotations

import os
import pathlib
import random
import signal
import subprocess
import sys

from outside.rooms import Rooms
from outside.runs import SECONDS, TOP

CLIENT = TOP / "examples/journal.py"
HEADER = "kind,animal,day,sire,dam,from,to,embryo\n"
KILLS = 30


def births(first: int, count: int) -> list[str]:
    """Every tenth is refused: its dam is itself."""
    numbers = (f"HOLGBRF{at:012}" for at in range(first, first + count))
    return [f"birth,{one},2001-01-01,0,{one if one.endswith('0') else '0'},,1," for one in numbers]


class TestJournal(Rooms):
    def test_kills(self) -> None:
        """It is killed at any moment, its journal torn, and opened again: what it answered stands there in its order,
        and the program answers it as it was answered."""
        path, draw = self.example_room("journal") / "journal.csv", random.Random(7)
        kept, count = list[str](), 0
        for kill in range(KILLS):
            given = births(kill * 1000 + 1, 400)
            told = self.answered(path, given, draw.uniform(0.1, 1.2))
            whole = whole_lines(path)
            # what was filed and wasn't answered may stand there too
            new = whole[len(kept) :]
            is_kept = whole[: len(kept)] == kept and new == given[: len(new)] and len(told) <= len(new)
            self.count(is_kept, f"kill {kill}: of {len(told)} answers and {len(kept)} lines {len(whole)} stand there")
            replies = self.run(["file"], HEADER + "".join(f"{line}\n" for line in whole)).out.decode().splitlines()
            same = replies[len(kept) : len(kept) + len(told)] == told
            self.count(same, f"kill {kill}: the program answers otherwise than {told[:1]}")
            kept, count = whole, count + len(told)
            if path.exists():
                with open(path, "ab") as file:
                    file.write(given[-1][: draw.randrange(40)].encode())
        self.count(count > 3 * KILLS, f"only {count} commands were answered in all")
        told = self.answered(path, births(900_000, 3), SECONDS)
        self.count(told == [f"{len(kept) + at},{'accepted' if at > 1 else 'refused,4'}" for at in (1, 2, 3)], f"{told}")

    def answered(self, path: pathlib.Path, given: list[str], seconds: float) -> list[str]:
        """What a run of the client answered before it ended, or was killed."""
        client = subprocess.Popen(
            [sys.executable, CLIENT, path], stdin=subprocess.PIPE, stdout=subprocess.PIPE, start_new_session=True,
            env={"PATH": os.environ["PATH"], "HERDBOOK": self.program},
        )  # fmt: skip
        try:
            told, _ = client.communicate("".join(f"{line}\n" for line in given).encode(), timeout=seconds)
        except subprocess.TimeoutExpired:
            os.killpg(client.pid, signal.SIGKILL)
            told, _ = client.communicate()
        return told.decode().split("\n")[:-1]


def whole_lines(path: pathlib.Path) -> list[str]:
    """The commands of a journal, but for a last line that is torn."""
    return path.read_text().split("\n")[1:-1] if path.exists() else []
