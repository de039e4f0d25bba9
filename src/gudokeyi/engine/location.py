"""Where the program is: where the variable HERDBOOK or a file of the machine says, beside the package, on the path, or
built in the clone.

Only a person who calls `./gudokeyi` at a terminal has it built: all else says what to do."""
from __future__ import annotations

import os
import pathlib
import sys
from typing import NoReturn

import gudokeyi
from gudokeyi.domain.messages import Mistake
from gudokeyi.domain.mistakes import ProgramFailed
from gudokeyi.engine.messages import ProgramFault

NAME = "herdbook"
PACKAGE = pathlib.Path(__file__).resolve().parents[1]
# the clone in which this is, if it is one
CLONE = PACKAGE.parents[1]
# the file that has the program's path for everybody at a machine
FOR_ALL = pathlib.Path("/etc/gudokeyi/program")
# how it is said where the built program is
SAY = "say where it is, as export HERDBOOK=/home/me/herdbook"


def located(asks: bool = True) -> pathlib.Path:
    """The program, or a mistake that says what to do. Nothing is built where nobody may be asked."""
    named = os.environ.get("HERDBOOK") or said_for_all()
    return where_said(pathlib.Path(named).absolute()) if named else beside() or on_path() or built_in_clone(asks)


def said_for_all() -> str:
    """What the machine's administrator says, once for servers and terminals; empty where nothing is said."""
    try:
        return FOR_ALL.read_text(encoding="utf-8").strip()
    except (OSError, UnicodeDecodeError):
        return ""


def where_said(path: pathlib.Path) -> pathlib.Path:
    if not path.exists():
        raise ProgramFailed(ProgramFault.NOT_THERE.said(path=path, hint=SAY))
    if path.is_dir():
        raise ProgramFailed(ProgramFault.IS_FOLDER.said(path=path, hint=SAY))
    return path


def beside() -> pathlib.Path | None:
    """The program that came with the package: in its folder, or beside a word that is in no clone."""
    found = [
        path for path in (PACKAGE / NAME, CLONE / NAME) if path.is_file() and not (is_clone() and path.parent == CLONE)
    ]
    return found[0] if found else None


def is_clone() -> bool:
    return (CLONE / "crates").is_dir()


def on_path() -> pathlib.Path | None:
    """The program that is installed, of the front desk's own version: that of another one may lack words."""
    # a call that asks the program nothing would wait for what begins others
    import shutil

    path = shutil.which(NAME)
    if not path or pathlib.Path(path).resolve() == CLONE / NAME:
        return None
    is_own = told_of([path, "--version"]) == f"{NAME} {gudokeyi.__version__}\n"
    return pathlib.Path(path) if is_own else None


def told_of(command: list[str]) -> str:
    import subprocess

    try:
        return subprocess.run(
            command, stdin=subprocess.DEVNULL, capture_output=True, text=True, errors="replace"
        ).stdout
    except OSError:
        return ""


def built_in_clone(asks: bool) -> pathlib.Path:
    """The program that the clone's script has built of what is there now. The script asks a person at a terminal
    first."""
    import subprocess

    script = CLONE / NAME
    if not is_clone() or not script.is_file():
        raise ProgramFailed(ProgramFault.NOT_FOUND.said(version=gudokeyi.__version__, hint=SAY))
    asks = asks and os.path.realpath(sys.argv[0]) == str(CLONE / "gudokeyi") and sys.stderr.isatty()
    done = subprocess.run(
        [str(script), "--version"], stdin=subprocess.DEVNULL, stdout=subprocess.DEVNULL,
        stderr=None if asks else subprocess.DEVNULL,
    )  # fmt: skip
    if done.returncode and asks:
        raise ProgramFailed(ProgramFault.NOT_BUILT.said(hint=SAY))
    if done.returncode:
        raise ProgramFailed(ProgramFault.NOT_BUILT_HERE.said(script=script, hint=SAY))
    return CLONE / "crates" / NAME / "out" / NAME


def run() -> NoReturn:
    """The command `herdbook` of an installed package that has the program in it."""
    try:
        path = str(located())
    except Mistake as mistake:
        sys.exit(f"{NAME}: {mistake.sentences[0]}")
    os.execv(path, [path, *sys.argv[1:]])
