"""The packages that parts of the front desk need: whether this Python has each within its range.

What Python has to read that takes tens of milliseconds to import, so it is asked only for what isn't seen without it.
"""
from __future__ import annotations

import contextlib
import enum
import os
import pathlib
import re
import sys
from typing import NamedTuple

from gudokeyi.domain.messages import Mistake
from gudokeyi.other_python import run_under_next

PROJECT = pathlib.Path(__file__).resolve().parents[2] / "pyproject.toml"


class Group(enum.StrEnum):
    """The groups of packages, as `pyproject.toml` names them."""

    WORKBOOKS = "workbooks"
    PAGES = "pages"
    BROWSER = "browser"
    PICTURES = "pictures"
    BREED = "breed"
    PEDIGREES = "pedigrees"


class Requirement(NamedTuple):
    """A package and its range: from a version on, and below another. `debian` is Debian's name for it."""

    package: str
    least: tuple[int, ...]
    below: tuple[int, ...]
    debian: str

    def is_met(self) -> bool:
        found = version_seen(self.package) or version_told(self.package)
        return found is not None and self.least <= numbers(found) < self.below

    def text(self) -> str:
        least, below = (".".join(map(str, version)) for version in (self.least, self.below))
        return f"{self.package}>={least},<{below}"


def version_seen(package: str) -> str:
    """The version of a package that stands in the name of what tells of it, beside the package; empty where nothing
    does."""
    name = re.sub("[-_.]+", "[-_.]+", re.escape(package).replace(r"\-", "-"))
    form = re.compile(rf"{name}-(\d[^-]*)(?:-py[\d.]+)?\.(?:dist|egg)-info", re.IGNORECASE)
    for place in sys.path:
        with contextlib.suppress(OSError):
            found = next(filter(None, map(form.fullmatch, os.listdir(place or "."))), None)
            if found:
                return found[1]
    return ""


def version_told(package: str) -> str | None:
    """The same as Python tells it; none where there is no such package."""
    import importlib.metadata

    try:
        return importlib.metadata.version(package)
    except importlib.metadata.PackageNotFoundError:
        return None


def need(group: Group, otherwise: str = "") -> None:
    """Makes sure that this Python has the packages of a group. Else the call begins anew under the next Python, or a
    sentence says what helps: so a word asks for them before it prints or writes anything."""
    lacking = [one for one in requirements(group) if not one.is_met()]
    if not lacking:
        return
    run_under_next()
    names = ", ".join(one.text() for one in lacking)
    debian = " ".join(one.debian for one in lacking)
    wanted = " ".join(f"'{one.text()}'" for one in lacking)
    raise Mistake(
        f"this needs {names}, which no Python here has: as root `apt install {debian}` on Debian 12 or newer, or "
        f"`pip install {wanted}` in an environment that is active{otherwise}"
    )


def requirements(group: Group) -> list[Requirement]:
    """Those of the project's file in a clone, or of the package that is installed."""
    if PROJECT.exists():
        return requirements_in(PROJECT.read_text(encoding="utf-8"), group)
    texts = required_here() or required_told()
    return [requirement(text, {}) for text in texts if f'extra == "{group}"' in text.replace("'", '"')]


def required_here() -> list[str]:
    """What stands beside an installed package of what it requires."""
    beside = pathlib.Path(__file__).resolve().parents[1]
    found = [path.read_text(encoding="utf-8") for path in beside.glob("gudokeyi-*.dist-info/METADATA")]
    return re.findall("^Requires-Dist: (.*)$", found[0], re.MULTILINE) if len(found) == 1 else []


def required_told() -> list[str]:
    """The same as Python tells it."""
    import importlib.metadata

    return importlib.metadata.requires("gudokeyi") or []


def requirements_in(project: str, group: str) -> list[Requirement]:
    """Those of a group in the project's file, each group of which stands in a line."""
    names = dict(re.findall(r'^([\w.-]+) = "([\w.-]+)"$', project.partition("[tool.gudokeyi.debian]")[2], re.MULTILINE))
    line = re.search(rf"^{group} = \[(.*)\]$", project.partition("[project.optional-dependencies]")[2], re.MULTILINE)
    assert line, f"there is no group {group}"
    return [requirement(text, names) for text in re.findall('"(.*?)"', line[1])]


def requirement(text: str, names: dict[str, str]) -> Requirement:
    """That of a text as `openpyxl >=3.0.9,<4`."""
    package, least, below = (re.search(form, text) for form in (r"^[\w.-]+", r">=([\d.]+)", r"<([\d.]+)"))
    assert package and least and below, f"{text} has no range"
    name = package[0]
    return Requirement(name, numbers(least[1]), numbers(below[1]), names.get(name, f"python3-{name.lower()}"))


def numbers(version: str) -> tuple[int, ...]:
    """The numbers with which a version begins, as 3, 1 and 2 of `3.1.2rc1`."""
    found = re.match(r"\d+(\.\d+)*", version)
    return tuple(map(int, found[0].split("."))) if found else ()
