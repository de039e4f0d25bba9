"""Folders in which commands run as they do at the top of the repository."""
from __future__ import annotations

import os
import pathlib
import shutil
import subprocess

from outside.runs import SECONDS, TOP, Checks, Done


class Rooms(Checks):
    def example_room(self, name: str) -> pathlib.Path:
        room = self.room / f"top-{name}"
        if not room.exists():
            room.mkdir()
            for folder in "examples", "src":
                shutil.copytree(TOP / folder, room / folder)
            # the front desk asks it for the packages that it needs
            shutil.copy(TOP / "pyproject.toml", room)
            shutil.copy(TOP / "gudokeyi", room)
            (room / "herdbook").symlink_to(self.program)
        return room

    def shell(self, line: str, room: pathlib.Path) -> Done:
        env = {"PATH": os.environ["PATH"], "HOME": str(room), "LANG": "C.UTF-8"}
        done = subprocess.run(["sh", "-c", line], cwd=room, env=env, capture_output=True, timeout=SECONDS)
        # what the front desk tells beside what it writes isn't the program's
        return Done(done.returncode, done.stdout, done.stderr if line.startswith("./herdbook") else b"")
