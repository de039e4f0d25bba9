"""The test command `check`, in a folder where rt, the tests and the packages are stand-ins."""
from __future__ import annotations

import os
import pathlib
import shutil
import subprocess

import pytest

from building.crates import TOP
from copied_repository import answered

# the commands that `check` is given, beside those that a test makes
COMMANDS = "cat cp cut dirname grep head id mktemp readlink rm sed sh tail tee tr wc".split()
RT = """#!/bin/sh
echo "rt $* by $RT_JOBS at once" >>"$NOTES"
echo "7 passed, 0 failed"
exit {status}
"""
NOTES = """#!/bin/sh
echo "{name}" >>"$NOTES"
exit {status}
"""
PROJECT = """[tool.gudokeyi.debian]
pytest = "python3-pytest"

[tool.pytest.ini_options]
[tool.mypy]
files = ["tests/test_one.py"]
"""
CONFTEST = (TOP / "tests/conftest.py").read_text(encoding="utf-8").replace('pytest.register_assert_rewrite', "str")


class Folder:
    """A folder with `check`, one test, and stand-ins for rt, the building and a system's installer."""

    def __init__(
        self, room: pathlib.Path, status_of_rt: int = 0, commands: tuple[str, ...] = ("cc", "chromedriver", "Rscript"),
        types: str | None = "",
    ) -> None:  # fmt: skip
        """`types` is what stands in for mypy, if anything does."""
        self.top, self.bin, self.notes = room / "repository", room / "bin", room / "notes"
        for folder in (self.top / "building", self.top / "tests", self.bin):
            folder.mkdir(parents=True)
        shutil.copy(TOP / "check", self.top / "check")
        for name in ("tests/counting.py", "building/asking.py", "building/machine.py"):
            shutil.copy(TOP / name, self.top / name)
        self.write("tests/conftest.py", CONFTEST)
        self.write("tests/test_one.py", "def test_one() -> None:\n    assert True\n")
        self.write("building/lacking.py", "")
        self.write("build.py", "print('what it is built of')\n")
        self.write("pyproject.toml", PROJECT)
        if types is not None:
            self.write("mypy.py", types)
        for name in COMMANDS:
            (self.bin / name).symlink_to(shutil.which(name) or name)
        self.add_command("rt", RT.format(status=status_of_rt))
        self.add_command("apt-get", NOTES.format(name="apt-get", status=100))
        self.add_command("fc-list", "#!/bin/sh\necho 'Liberation Sans:style=Regular'\n")
        for name in commands:
            self.add_command(name, NOTES.format(name=name, status=0))

    def write(self, name: str, text: str) -> None:
        (self.top / name).write_text(text, encoding="utf-8")

    def add_command(self, name: str, text: str) -> None:
        (self.bin / name).write_text(text, encoding="utf-8")
        (self.bin / name).chmod(0o755)

        self.env = {"PATH": str(self.bin), "NOTES": str(self.notes), "HOME": str(self.top)}

    def call(self) -> tuple[int, list[str], str]:
        """The status of a call, the lines that it wrote, and what it told on standard error."""
        ended = subprocess.run(
            [self.top / "check"], env=self.env, capture_output=True, text=True, timeout=120, preexec_fn=with_one_processor
        )
        return ended.returncode, ended.stdout.splitlines(), ended.stderr


def with_one_processor() -> None:
    """So one test isn't given to as many processes as there are processors."""
    os.sched_setaffinity(0, {min(os.sched_getaffinity(0))})


@pytest.mark.parametrize("status", [1, 137])
def test_status_of_the_gate_counts(tmp_path: pathlib.Path, status: int) -> None:
    ended, lines, told = Folder(tmp_path, status).call()
    assert ended == 1
    assert lines[-1].endswith(", 1 failed")
    assert f"rt ci ended with status {status}" in told


def test_what_is_missing_is_told_behind_the_proofs(tmp_path: pathlib.Path) -> None:
    folder = Folder(tmp_path, commands=("cc", "Rscript"))
    ended, lines, told = folder.call()
    assert ended == 1
    assert folder.notes.read_text(encoding="utf-8").splitlines()[0] == "rt ci by 1 at once"
    assert "7 passed, 0 failed" in lines
    assert "chromedriver isn't on the path" in told
    assert not lines[-1].endswith(" 0 failed")


def test_what_is_missing_of_r_is_told(tmp_path: pathlib.Path) -> None:
    ended, lines, told = Folder(tmp_path, commands=("cc", "chromedriver")).call()
    assert ended == 1 and not lines[-1].endswith(" 0 failed")
    assert (
        "R isn't there with what its package is checked with: on Debian apt install r-base-core r-cran-matrix" in told
    )


def test_all_that_is_well_counts(tmp_path: pathlib.Path) -> None:
    ended, lines, told = Folder(tmp_path, types=None).call()
    # seven of the gate, one test, and the types
    assert (ended, lines[-1], told) == (0, "9 passed, 0 failed", "")


def test_asks_at_a_terminal(tmp_path: pathlib.Path) -> None:
    """It tells how long it takes, and after a no nothing is proved."""
    folder = Folder(tmp_path)
    status, told = answered(folder.top / "check", [], folder.env, "n\n")
    assert status == 1 and "in an hour or more on four cores. Begin? [Y/n, in 30 seconds yes]" in told
    assert not folder.notes.exists()
