"""What a release is: its version and day, the commit that it is made of, and what was proved."""
from __future__ import annotations

import datetime
import hashlib
import pathlib
import re
import subprocess
from dataclasses import dataclass

import gudokeyi
from building import proved
from building.crates import TOP, Crates
from building.telling import Stop

# a version of the page of changes: its day, and what users meet
HEADING = re.compile(r"^## (\d+\.\d+\.\d+) \((\d{4}-\d\d-\d\d)\)$", re.MULTILINE)
GLIBC = re.compile(rb"GLIBC_2\.(\d+)")


@dataclass(frozen=True)
class Release:
    """`moment` is when the commit was made, in seconds, which each file of a package bears."""

    version: str
    day: datetime.date
    commit: str
    moment: int
    program: pathlib.Path
    # the least minor version of glibc 2 that the program runs with
    glibc: int
    functions: int
    kit: str
    # the crates of which an earlier run's number isn't kept
    uncounted: tuple[str, ...] = ()

    def proved(self) -> str:
        """What was proved, in lines."""
        return (
            f"program: herdbook {self.version}\n"
            f"commit: {self.commit}\n"
            f"kit: {self.kit.partition(' ')[0]}\n"
            f"rt version: {self.kit}\n"
            f"proved functions: {self.functions}{self.beside()}\n"
            f"sha256 as built: {hashlib.sha256(self.program.read_bytes()).hexdigest()}\n"
            f"runs on: Linux, x86-64-v2, glibc 2.{self.glibc} or later\n"
        )

    def beside(self) -> str:
        return f", and those of {', '.join(self.uncounted)}, which an earlier run proved" if self.uncounted else ""


def release_of(crates: Crates, program: pathlib.Path) -> Release:
    """That of the commit of the clone, with the program that is built of it."""
    days = dict(HEADING.findall((TOP / "CHANGELOG.md").read_text(encoding="utf-8")))
    version = gudokeyi.__version__
    if version not in days:
        raise Stop(f"CHANGELOG.md has no version {version}: write what users meet under it")
    told = told_by([str(program), "--version"])
    if told != f"herdbook {version}":
        raise Stop(f"{program} tells that it is {told!r}, and not herdbook {version}")
    proofs = {name: proved.kept(name) for name in crates.lines}
    unknown = tuple(name for name, proof in proofs.items() if proof is None)
    found = [proof for proof in proofs.values() if proof]
    if not found:
        raise Stop(
            f"nothing is kept of what was proved: build.py {crates.program} proves and tells it anew, or "
            f"build.py --told FILE {crates.program} keeps what the gate told into a file"
        )
    return Release(
        version, datetime.date.fromisoformat(days[version]), commit(), int(git("log", "-1", "--format=%ct")), program,
        glibc_of(program.read_bytes()), sum(one.functions for one in found), ", ".join(sorted({one.kit for one in found})),
        unknown,
    )  # fmt: skip


def glibc_of(program: bytes) -> int:
    return max((int(minor) for minor in GLIBC.findall(program)), default=0)


def commit() -> str:
    """The commit, and whether files of it are changed."""
    changed = git("status", "--porcelain", "--untracked-files=no")
    return git("rev-parse", "HEAD") + (" with changes that aren't committed" if changed else "")


def tracked(folder: str) -> list[pathlib.Path]:
    """The files of a folder that the repository has."""
    return [TOP / name for name in git("ls-files", "-z", folder).split("\0") if name and (TOP / name).is_file()]


def git(*words: str) -> str:
    return told_by(["git", "-C", str(TOP), *words])


def told_by(command: list[str]) -> str:
    done = subprocess.run(command, stdin=subprocess.DEVNULL, capture_output=True, text=True)
    if done.returncode:
        raise Stop(f"`{' '.join(command)}` ended with status {done.returncode}: {done.stderr.strip()}")
    return done.stdout.strip()
