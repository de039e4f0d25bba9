"""The front desk as Python's packages have it, and the wheel, which has the program in it too."""
from __future__ import annotations

import base64
import hashlib
import io
import pathlib
import time
import tomllib
import zipfile
from typing import Any

from building.crates import TOP
from building.packages.files import RUN, File, Files, Link, below, from_file, text
from building.packages.release import Release, tracked
from gudokeyi.locale import compiled

SOURCES = "src/gudokeyi"
EXAMPLE = "examples/society.csv"
# a group of all that the front desk needs
ALL, TESTS = "all", "tests"


def project() -> dict[str, Any]:
    return tomllib.loads((TOP / "pyproject.toml").read_text(encoding="utf-8"))


def modules() -> dict[str, File | Link]:
    """The front desk's own files, with its catalogues compiled."""
    paths = {str(path.relative_to(TOP / "src")): path for path in tracked(SOURCES)}
    files: dict[str, File | Link] = {name: from_file(path) for name, path in paths.items()}
    catalogues = {name: path for name, path in paths.items() if path.suffix == ".po"}
    return files | {f"{name[:-3]}.mo": File(compiled(path.read_bytes())) for name, path in catalogues.items()}


def metadata(release: Release, scripts: dict[str, str]) -> dict[str, File | Link]:
    """What Python knows of an installed package, and its words."""
    told = project()["project"]
    groups: dict[str, list[str]] = told["optional-dependencies"]
    groups = groups | {ALL: sorted({need for name, needs in groups.items() if name != TESTS for need in needs})}
    lines = [
        "Metadata-Version: 2.1", f"Name: {told['name']}", f"Version: {release.version}", f"Summary: {told['description']}",
        f"Requires-Python: {told['requires-python']}",
    ]  # fmt: skip
    for group, needs in groups.items():
        lines += [f"Provides-Extra: {group}", *(f"Requires-Dist: {need}; extra == \"{group}\"" for need in needs)]
    words = "".join(f"{name} = {call}\n" for name, call in scripts.items())
    return {"METADATA": text("\n".join(lines) + "\n"), "entry_points.txt": text(f"[console_scripts]\n{words}")}


def wheel_name(release: Release) -> str:
    return f"gudokeyi-{release.version}-py3-none-manylinux_2_{release.glibc}_x86_64"


def wheel_files(release: Release, shared: Files) -> dict[str, File | Link]:
    """`shared` are files for the folder `share` of an environment."""
    name = f"gudokeyi-{release.version}"
    told = f"Wheel-Version: 1.0\nGenerator: gudokeyi\nRoot-Is-Purelib: false\nTag: {wheel_name(release).split('-', 2)[2]}\n"
    scripts = project()["project"]["scripts"] | {"herdbook": "gudokeyi.engine.location:run"}
    files: dict[str, File | Link] = {
        **modules(),
        "gudokeyi/herdbook": from_file(release.program, RUN),
        f"gudokeyi/{EXAMPLE}": from_file(TOP / EXAMPLE),
        **below(f"{name}.data/data/share", shared),
        **below(f"{name}.dist-info", metadata(release, scripts) | {"WHEEL": text(told)}),
    }
    lines = [
        f"{path},{checksum(one)},{len(one.content)}\n" for path, one in sorted(files.items()) if isinstance(one, File)
    ]
    record = f"{name}.dist-info/RECORD"
    return files | {record: text("".join([*lines, f"{record},,\n"]))}


def checksum(one: File) -> str:
    digest = base64.urlsafe_b64encode(hashlib.sha256(one.content).digest()).decode().rstrip("=")
    return f"sha256={digest}"


def packed(files: Files, moment: int) -> bytes:
    """A wheel's bytes."""
    made = io.BytesIO()
    with zipfile.ZipFile(made, "w", zipfile.ZIP_DEFLATED) as archive:
        # what says what the others are stands last
        for name, one in sorted(files.items(), key=lambda item: (".dist-info/" in item[0], item[0])):
            assert isinstance(one, File), f"{name}: a wheel has no links"
            entry = zipfile.ZipInfo(name, time.gmtime(moment)[:6])
            entry.compress_type, entry.create_system = zipfile.ZIP_DEFLATED, 3
            entry.external_attr = (0o100000 | one.mode) << 16
            archive.writestr(entry, one.content)
    return made.getvalue()


def write_wheel(release: Release, shared: Files, folder: pathlib.Path) -> pathlib.Path:
    path = folder / f"{wheel_name(release)}.whl"
    path.write_bytes(packed(wheel_files(release, shared), release.moment))
    return path
