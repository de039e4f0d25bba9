"""The archive for any Linux: the program, the wheel, checksums, and what was proved."""
from __future__ import annotations

import gzip
import hashlib
import io
import pathlib
import tarfile

from building.crates import TOP
from building.packages.files import FOLDER, RUN, File, Files, from_file, text
from building.packages.release import Release

LIKE_THIS = """In this folder are the proved program `herdbook` and the wheel of the front desk, which has the program in it too.

    sha256sum --check SHA256SUMS
    python3 -m venv ~/.local/share/gudokeyi
    ~/.local/share/gudokeyi/bin/pip install '{wheel}[all]'
    ~/.local/share/gudokeyi/bin/gudokeyi open

PROVED says what was proved, LICENCE what may be done with it.
"""


def archive_files(release: Release, wheel: pathlib.Path) -> Files:
    files: dict[str, File] = {
        "herdbook": from_file(release.program, RUN),
        wheel.name: from_file(wheel),
        "PROVED": text(release.proved()),
        "README": text(LIKE_THIS.format(wheel=wheel.name)),
        "LICENCE": from_file(TOP / "packaging/copyright"),
    }
    sums = (f"{hashlib.sha256(one.content).hexdigest()}  {name}\n" for name, one in sorted(files.items()))
    return files | {"SHA256SUMS": text("".join(sums))}


def write_archive(release: Release, wheel: pathlib.Path, folder: pathlib.Path) -> pathlib.Path:
    name = f"gudokeyi-{release.version}"
    path = folder / f"{name}-linux-x86_64.tar.gz"
    made = io.BytesIO()
    with tarfile.open(fileobj=made, mode="w", format=tarfile.USTAR_FORMAT) as archive:
        top = entry_of(name, FOLDER, release.moment)
        top.type = tarfile.DIRTYPE
        archive.addfile(top)
        for path_in, one in sorted(archive_files(release, wheel).items()):
            assert isinstance(one, File)
            entry = entry_of(f"{name}/{path_in}", one.mode, release.moment)
            entry.size = len(one.content)
            archive.addfile(entry, io.BytesIO(one.content))
    path.write_bytes(gzip.compress(made.getvalue(), 9, mtime=release.moment))
    return path


def entry_of(name: str, mode: int, moment: int) -> tarfile.TarInfo:
    entry = tarfile.TarInfo(name)
    entry.mode, entry.mtime = mode, moment
    entry.uname = entry.gname = "root"
    return entry
