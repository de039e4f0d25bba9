"""The Debian package, made by dpkg-deb of the files in `packaging/` and of what the repository has."""
from __future__ import annotations

import datetime
import gzip
import hashlib
import os
import pathlib
import re
import subprocess
import tempfile
import textwrap

from building.crates import TOP
from building.packages.files import RUN, File, Files, Link, below, from_file, lay_down, text
from building.packages.release import HEADING, Release, tracked
from building.packages.wheel import EXAMPLE, metadata, modules, project
from building.telling import Stop

PARTS = TOP / "packaging"
# where Debian's Python has packages, and where this package has what isn't code
MODULES, SHARED, DOC = "usr/lib/python3/dist-packages", "usr/share/gudokeyi", "usr/share/doc/gudokeyi"
SCRIPT = """#!/usr/bin/python3
import sys

# commands that are shown name it as it is called
sys.argv[0] = "gudokeyi"

from gudokeyi.cli.main import run

run()
"""
SCRIPTS = ("postinst", "prerm", "postrm")
# what the front desk goes without; the package recommends what pedigrees without a book need
NOT_NEEDED = ("tests", "pedigrees")
UNITS = ("herdbook.service", "herdbook-backup.service", "herdbook-backup.timer")
RANGE = re.compile(r"([\w-]+) >=([\d.]+),<([\d.]+)")


def deb_files(release: Release, shared: Files) -> Files:
    """`shared` are files for `usr/share`: man pages and completion."""
    name = f"gudokeyi-{release.version}.dist-info"
    scripts = project()["project"]["scripts"]
    pages = {str(path.relative_to(TOP)): from_file(path) for path in tracked("docs")}
    return {
        "usr/bin/herdbook": File(stripped(release), RUN),
        "usr/bin/gudokeyi": text(SCRIPT, RUN),
        **below(MODULES, modules()),
        f"{MODULES}/gudokeyi/examples": Link("../../../../share/gudokeyi/examples"),
        **below(f"{MODULES}/{name}", metadata(release, scripts)),
        f"{SHARED}/{EXAMPLE}": from_file(TOP / EXAMPLE),
        **below("usr/share", compressed(shared)),
        "usr/share/applications/gudokeyi.desktop": from_file(PARTS / "gudokeyi.desktop"),
        "usr/share/icons/hicolor/scalable/apps/gudokeyi.svg": from_file(TOP / "src/gudokeyi/web/static/icon.svg"),
        "usr/lib/gudokeyi/backup": File((PARTS / "backup").read_bytes(), RUN),
        **{f"usr/lib/systemd/system/{unit}": from_file(TOP / "examples/serving" / unit) for unit in UNITS},
        **below(DOC, pages),
        f"{DOC}/README.md": from_file(TOP / "README.md"),
        f"{DOC}/PROVED": text(f"{release.proved()}in this package: the same without the names of its functions\n"),
        f"{DOC}/copyright": from_file(PARTS / "copyright"),
        f"{DOC}/changelog.gz": File(gzip.compress(changelog().encode(), 9, mtime=0)),
        f"{DOC}/examples/society.csv": Link("../../../gudokeyi/examples/society.csv"),
        f"{DOC}/examples/nginx.conf": from_file(TOP / "examples/serving/nginx.conf"),
    }


def compressed(shared: Files) -> Files:
    """With man pages as Debian has them."""
    return {
        (f"{name}.gz" if name.startswith("man/") else name): (
            File(gzip.compress(one.content, 9, mtime=0)) if name.startswith("man/") and isinstance(one, File) else one
        )
        for name, one in shared.items()
    }


def stripped(release: Release) -> bytes:
    """The program without the names of its functions, as Debian's programs are."""
    with tempfile.TemporaryDirectory(prefix="gudokeyi-") as room:
        path = pathlib.Path(room, "herdbook")
        path.write_bytes(release.program.read_bytes())
        run(["strip", "--strip-unneeded", "--remove-section=.comment", "--remove-section=.note", str(path)])
        return path.read_bytes()


def changelog() -> str:
    """CHANGELOG.md as Debian writes such a page."""
    page = (TOP / "CHANGELOG.md").read_text(encoding="utf-8")
    _, *parts = HEADING.split(page)
    maintainer = re.search(r"^Maintainer: (.*)$", (PARTS / "control").read_text(encoding="utf-8"), re.MULTILINE)
    assert maintainer
    return "\n".join(
        f"gudokeyi ({version}) unstable; urgency=medium\n\n{entries(told)}\n"
        f" -- {maintainer[1]}  {datetime.date.fromisoformat(day):%a, %d %b %Y} 12:00:00 +0000\n"
        for version, day, told in zip(parts[::3], parts[1::3], parts[2::3])
    )


def entries(told: str) -> str:
    """The entries of a version: what stands behind the next heading is of none."""
    lines = re.findall(r"^- (.*)$|^\*\*(.*)\*\*$", told.partition("\n## ")[0], re.MULTILINE)
    return "".join(
        f"  [ {part} ]\n"
        if part
        else textwrap.fill(plain(entry), 78, initial_indent="  * ", subsequent_indent="    ") + "\n"
        for entry, part in lines
    )


def plain(entry: str) -> str:
    return re.sub(r"\[([^]]*)\]\([^)]*\)", r"\1", entry)


def depends(release: Release) -> str:
    """Debian's packages, with the ranges of pyproject.toml."""
    told = project()
    names: dict[str, str] = told["tool"]["gudokeyi"]["debian"]
    groups: dict[str, list[str]] = told["project"]["optional-dependencies"]
    needs = {need for group, needs in groups.items() if group not in NOT_NEEDED for need in needs}
    found = [f"libc6 (>= 2.{release.glibc})", f"python3 ({told['project']['requires-python'].replace('>=', '>= ')})"]
    for name, least, below_this in sorted(RANGE.fullmatch(need).groups() for need in needs):  # type: ignore[union-attr]
        found += [f"{names[name]} (>= {least})", f"{names[name]} (<< {below_this})"]
    return ", ".join(found)


def control(release: Release, files: Files) -> str:
    template = (PARTS / "control").read_text(encoding="utf-8")
    size = sum(-(-len(one.content) // 1024) if isinstance(one, File) else 1 for one in files.values())
    own = {"VERSION": release.version, "DEPENDS": depends(release), "SIZE": str(size)}
    return re.sub(r"@(\w+)@", lambda found: own[found[1]], template)


def checksums(files: Files) -> str:
    return "".join(
        f"{hashlib.md5(one.content, usedforsecurity=False).hexdigest()}  {name}\n"
        for name, one in sorted(files.items()) if isinstance(one, File)
    )  # fmt: skip


def write_deb(release: Release, shared: Files, folder: pathlib.Path) -> pathlib.Path:
    path = folder / f"gudokeyi_{release.version}_amd64.deb"
    files = deb_files(release, shared)
    about = {"control": text(control(release, files)), "md5sums": text(checksums(files))}
    about |= {name: from_file(PARTS / name, RUN) for name in SCRIPTS}
    with tempfile.TemporaryDirectory(prefix="gudokeyi-") as room:
        lay_down({**files, **below("DEBIAN", about)}, pathlib.Path(room, "root"), release.moment)
        words = ["dpkg-deb", "--root-owner-group", "-Zxz", "--threads-max=1", "--build"]
        run([*words, str(pathlib.Path(room, "root")), str(path)], SOURCE_DATE_EPOCH=str(release.moment))
    return path


def run(command: list[str], **variables: str) -> None:
    environment = {**os.environ, **variables}
    try:
        done = subprocess.run(command, env=environment, stdin=subprocess.DEVNULL, capture_output=True, text=True)
    except FileNotFoundError:
        raise Stop(
            f"the command {command[0]} isn't on the path: as root on Debian `apt install dpkg binutils`"
        ) from None
    if done.returncode:
        raise Stop(f"{command[0]} ended with status {done.returncode}: {(done.stderr or done.stdout).strip()}")
