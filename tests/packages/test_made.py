"""What `package` makes: the files of the Debian package and the wheel, man pages, completion, and the same bytes
twice."""
from __future__ import annotations

import datetime
import hashlib
import io
import os
import pathlib
import re
import shutil
import subprocess
import sys
import tarfile
import zipfile

import pytest

import gudokeyi
from building import proved
from building.crates import TOP, Crates
from building.packages import deb
from building.packages import release as releases
from building.packages.archive import write_archive
from building.packages.completion import completion
from building.packages.deb import changelog, control, deb_files, depends, write_deb
from building.packages.files import Files, text
from building.packages.manual import manual
from building.packages.release import Release, glibc_of
from building.packages.wheel import write_wheel
from building.packages.words import Program, front_desk, register
from building.telling import Stop

# a moment of a commit, 2026-11-29
MOMENT = 1_795_939_200
# a program as the compiler leaves one, which answers with the help that the program has
SOURCE = """#include <stdio.h>
int main(int count, char **words) { FILE *file = fopen(words[count - 1], "r"); puts("herdbook"); return file != 0; }
"""
PATHS = {
    "usr/bin/gudokeyi", "usr/bin/herdbook", "usr/lib/gudokeyi/backup", "usr/lib/systemd/system/herdbook.service",
    "usr/lib/systemd/system/herdbook-backup.service", "usr/lib/systemd/system/herdbook-backup.timer",
    "usr/share/applications/gudokeyi.desktop", "usr/share/bash-completion/completions/gudokeyi",
    "usr/share/bash-completion/completions/herdbook", "usr/share/doc/gudokeyi/PROVED", "usr/share/doc/gudokeyi/README.md",
    "usr/share/doc/gudokeyi/changelog.gz", "usr/share/doc/gudokeyi/copyright",
    "usr/share/doc/gudokeyi/docs/INSTALL.md", "usr/share/doc/gudokeyi/docs/SERVING.md",
    "usr/share/doc/gudokeyi/examples/nginx.conf", "usr/share/doc/gudokeyi/examples/society.csv",
    "usr/share/gudokeyi/examples/society.csv", "usr/share/icons/hicolor/scalable/apps/gudokeyi.svg",
    "usr/share/man/man1/gudokeyi.1.gz", "usr/share/man/man1/herdbook.1.gz",
}  # fmt: skip


def help_of(word: str) -> str:
    return (TOP / f"tests/help/{word or 'herdbook'}.txt").read_text(encoding="utf-8")


PROGRAMS = [front_desk(), register(help_of)]


def shared() -> Files:
    day = datetime.date(2026, 11, 29)
    pages = {f"man/man1/{one.name}.1": text(manual(one, "0.12.1", day)) for one in PROGRAMS}
    return pages | {f"bash-completion/completions/{one.name}": text(completion(one)) for one in PROGRAMS}


@pytest.fixture(scope="module")
def release(tmp_path_factory: pytest.TempPathFactory) -> Release:
    """One of a program that is no herd book's."""
    room = tmp_path_factory.mktemp("program")
    (room / "source.c").write_text(SOURCE)
    subprocess.run(["cc", "-o", room / "herdbook", room / "source.c"], check=True)
    found = glibc_of((room / "herdbook").read_bytes())
    day = datetime.date(2026, 11, 29)
    return Release(gudokeyi.__version__, day, "c0ffee", MOMENT, room / "herdbook", found, 600, "a kit logic 1")


def made(release: Release, room: pathlib.Path) -> dict[str, bytes]:
    room.mkdir()
    wheel = write_wheel(release, shared(), room)
    files = [write_deb(release, shared(), room), wheel, write_archive(release, wheel, room)]
    return {path.name: path.read_bytes() for path in files}


def test_same_bytes(release: Release, tmp_path: pathlib.Path) -> None:
    """Made twice they are the same, whatever rights new files get, and however the place and the day are called."""
    before = os.umask(0o077)
    try:
        first = made(release, tmp_path / "first")
    finally:
        os.umask(before)
    again = made(release, tmp_path / "another place")
    version = gudokeyi.__version__
    assert sorted(first) == [
        f"gudokeyi-{version}-linux-x86_64.tar.gz",
        f"gudokeyi-{version}-py3-none-manylinux_2_{release.glibc}_x86_64.whl",
        f"gudokeyi_{version}_amd64.deb",
    ]
    assert first == again


def test_files_of_the_package(release: Release, tmp_path: pathlib.Path) -> None:
    """The package has these files and the front desk's modules, all of root and none that others may write."""
    path = write_deb(release, shared(), tmp_path)
    packed = subprocess.run(["dpkg-deb", "--fsys-tarfile", path], capture_output=True, check=True).stdout
    with tarfile.open(fileobj=io.BytesIO(packed)) as archive:
        members = archive.getmembers()
    names = {one.name.removeprefix("./") for one in members if not one.isdir()}
    assert names >= PATHS, PATHS - names
    others = {
        name
        for name in names - PATHS
        if not name.startswith(("usr/lib/python3/dist-packages/gudokeyi", "usr/share/doc/"))
    }
    assert not others
    modules = {str(path.relative_to(TOP / "src")) for path in releases.tracked("src/gudokeyi")}
    compiled = {name.removesuffix(".po") + ".mo" for name in modules if name.endswith(".po")}
    made = modules | compiled | {"gudokeyi/examples"}
    assert (
        compiled
        and {name.partition("dist-packages/")[2] for name in names if "dist-packages/gudokeyi/" in name} == made
    )
    assert all((one.uname, one.gname, one.mtime) == ("root", "root", MOMENT) for one in members)
    assert {one.mode for one in members if not one.issym()} == {0o755, 0o644}
    assert {one.name for one in members if one.isfile() and one.mode == 0o755} == {
        "./usr/bin/gudokeyi",
        "./usr/bin/herdbook",
        "./usr/lib/gudokeyi/backup",
    }


def test_what_the_package_says_of_itself(release: Release) -> None:
    """Its dependencies are those of pyproject.toml, as Debian calls them, and the C library of the program."""
    told = control(release, deb_files(release, shared()))
    assert f"\nVersion: {gudokeyi.__version__}\n" in told and "@" not in told.replace("maintainers@", "")
    needs = depends(release)
    assert f"libc6 (>= 2.{release.glibc}), python3 (>= 3.11), python3-flask (>= 2.2), python3-flask (<< 4)" in needs
    assert "python3-openpyxl (>= 3.0.9)" in needs and "pytest" not in needs and "scipy" not in needs
    first, *lines = changelog().splitlines()
    assert first == f"gudokeyi ({gudokeyi.__version__}) unstable; urgency=medium"
    assert all(len(line) <= 80 for line in lines if not line.startswith(" -- "))
    licence = (TOP / "packaging/copyright").read_text(encoding="utf-8")
    said = re.search(
        r"No licence is chosen yet: ask before you copy it\.", (TOP / "README.md").read_text(encoding="utf-8")
    )
    assert said and said[0] in licence


@pytest.mark.parametrize("name", deb.SCRIPTS)
def test_scripts(name: str) -> None:
    """A shell reads them, and none removes a file: books stay."""
    subprocess.run(["sh", "-n", TOP / "packaging" / name], check=True)
    assert not re.search(r"\brm\b|/srv|/var|/home", (TOP / "packaging" / name).read_text(encoding="utf-8"))


def test_purge(release: Release, tmp_path: pathlib.Path) -> None:
    """What was enabled leaves no links to units that aren't there any more."""
    root, tools = tmp_path / "root", tmp_path / "tools"
    tools.mkdir()
    helper = shutil.which("deb-systemd-helper")
    assert helper
    (tools / "deb-systemd-helper").symlink_to(helper)
    subprocess.run(["dpkg-deb", "-R", write_deb(release, shared(), tmp_path), root], check=True)

    def call(script: str, *words: str) -> None:
        known = {"PATH": str(tools), "DPKG_ROOT": str(root), "DPKG_MAINTSCRIPT_PACKAGE": "gudokeyi"}
        subprocess.run(["/bin/sh", root / "DEBIAN" / script, *words], env=known, check=True)

    call("postinst", "configure", "")
    # as `systemctl enable` makes them
    links = {"multi-user": "herdbook.service", "timers": "herdbook-backup.timer"}
    enabled = [root / f"etc/systemd/system/{target}.target.wants/{unit}" for target, unit in links.items()]
    for link in enabled:
        link.parent.mkdir(parents=True)
        link.symlink_to(f"/usr/lib/systemd/system/{link.name}")
    call("postinst", "configure", "0.12.0")
    call("prerm", "remove")
    call("postrm", "remove")
    assert all(link.is_symlink() for link in enabled)
    call("postrm", "purge")
    assert not any(link.is_symlink() for link in enabled)


def test_wheel(release: Release, tmp_path: pathlib.Path) -> None:
    """The wheel has the program, which may be run, and its record tells each file's checksum."""
    with zipfile.ZipFile(write_wheel(release, shared(), tmp_path)) as wheel:
        program = wheel.getinfo("gudokeyi/herdbook")
        assert program.external_attr >> 16 == 0o100755 and wheel.read(program) == release.program.read_bytes()
        assert wheel.read("gudokeyi/examples/society.csv") == (TOP / "examples/society.csv").read_bytes()
        folder = f"gudokeyi-{gudokeyi.__version__}.dist-info"
        record = [line.split(",") for line in wheel.read(f"{folder}/RECORD").decode().splitlines()]
        assert [name for name, *_ in record] == sorted(set(wheel.namelist()) - {f"{folder}/RECORD"}) + [
            f"{folder}/RECORD"
        ]
        assert all(int(size) == len(wheel.read(name)) for name, _, size in record[:-1])
        told = wheel.read(f"{folder}/METADATA").decode()
        assert 'Requires-Dist: Flask >=2.2,<4; extra == "all"' in told.splitlines()
        assert "herdbook = gudokeyi.engine.location:run" in wheel.read(f"{folder}/entry_points.txt").decode()


def test_wheel_without_a_clone(release: Release, tmp_path: pathlib.Path) -> None:
    """Unpacked elsewhere it knows its version, has its program beside it, and the example."""
    with zipfile.ZipFile(write_wheel(release, {}, tmp_path)) as wheel:
        wheel.extractall(tmp_path / "there")
    asked = (
        "import gudokeyi; from gudokeyi.engine.location import located; print(gudokeyi.__version__, located())\n"
        "import gudokeyi.web.files as files; print(files.EXAMPLE.exists())"
    )
    known = {"PYTHONPATH": str(tmp_path / "there"), "PATH": "/usr/bin:/bin"}
    done = subprocess.run([sys.executable, "-c", asked], env=known, cwd=tmp_path, capture_output=True, text=True)
    assert done.stdout == f"{gudokeyi.__version__} {tmp_path}/there/gudokeyi/herdbook\nTrue\n", done.stderr


def test_archive(release: Release, tmp_path: pathlib.Path) -> None:
    """Its checksums hold, and it says what was proved."""
    wheel = write_wheel(release, shared(), tmp_path)
    with tarfile.open(write_archive(release, wheel, tmp_path)) as archive:
        archive.extractall(tmp_path / "there")
    folder = tmp_path / f"there/gudokeyi-{gudokeyi.__version__}"
    subprocess.run(["sha256sum", "--check", "--strict", "SHA256SUMS"], cwd=folder, check=True, capture_output=True)
    assert {path.name for path in folder.iterdir()} == {
        "herdbook",
        wheel.name,
        "PROVED",
        "README",
        "LICENCE",
        "SHA256SUMS",
    }
    told = (folder / "PROVED").read_text()
    assert "commit: c0ffee\nkit: a\nrt version: a kit logic 1\nproved functions: 600\n" in told
    assert f"sha256 as built: {hashlib.sha256((folder / 'herdbook').read_bytes()).hexdigest()}\n" in told


@pytest.mark.parametrize("program", PROGRAMS, ids=["gudokeyi", "herdbook"])
def test_man_pages(program: Program, tmp_path: pathlib.Path) -> None:
    """They are made of the help: each word and option is there, and `man` has nothing to say about them."""
    path = tmp_path / f"{program.name}.1"
    path.write_text(manual(program, "0.12.1", datetime.date(2026, 11, 29)))
    known = {**os.environ, "MANWIDTH": "200", "LC_ALL": "C.UTF-8"}
    shown = subprocess.run(["man", "--warnings", "-l", path], env=known, capture_output=True, text=True)
    assert shown.returncode == 0 and not shown.stderr, shown.stderr
    if shutil.which("mandoc"):
        seen = subprocess.run(["mandoc", "-T", "lint", "-W", "warning", path], capture_output=True, text=True)
        assert not seen.stdout, seen.stdout
    assert len(program.words) >= 9
    for word in program.words:
        assert f"\n   {word.name}\n" in shown.stdout
        section = re.split(r"\n   (?=\w)|\n(?=[A-Z])", shown.stdout.partition(f"\n   {word.name}\n")[2])[0]
        assert all(f" {flag}" in section for one in word.arguments for flag in one.flags), section


COMPLETED = [
    ("gudokeyi ce", ["certificate"]),
    ("gudokeyi import --pre", ["--preview"]),
    ("gudokeyi list --sex ", []),
    ("gudokeyi certificate X --language ", ["de", "en", "fr"]),
    ("gudokeyi account Kim --role k", ["keeper"]),
    ("gudokeyi show --book b", ["book", "breeds"]),
    ("herdbook in", ["inbreeding", "inverse"]),
    ("herdbook mating --d", ["--dam"]),
    ("herdbook help c", ["certificate", "check", "clerks"]),
]


@pytest.mark.parametrize(("line", "wanted"), COMPLETED)
def test_completion(line: str, wanted: list[str], tmp_path: pathlib.Path) -> None:
    """What bash offers behind a line."""
    for program in PROGRAMS:
        (tmp_path / f"{program.name}.bash").write_text(completion(program))
    for folder in ("book", "breeds"):
        (tmp_path / "room" / folder).mkdir(parents=True)
    words = line.split(" ")
    script = (
        f"source ../{words[0]}.bash; compopt() {{ :; }}; "
        f"COMP_WORDS=({' '.join(word or chr(39) * 2 for word in words)}); COMP_CWORD={len(words) - 1}; _{words[0]}; "
        f"printf '%s\\n' \"${{COMPREPLY[@]}}\""
    )
    done = subprocess.run(["bash", "-c", script], cwd=tmp_path / "room", capture_output=True, text=True)
    assert (sorted(done.stdout.split()), done.stderr) == (wanted, "")


def test_what_was_proved(release: Release, tmp_path: pathlib.Path, monkeypatch: pytest.MonkeyPatch) -> None:
    """A release tells the functions of all crates together, names those whose number isn't kept, and isn't made where
    none is."""
    crates = Crates("herdbook")
    monkeypatch.setattr(
        releases, "told_by", lambda command: f"herdbook {gudokeyi.__version__}" if command[-1] == "--version" else "1"
    )
    monkeypatch.setattr(proved, "kept", lambda name: proved.Proof(2, "a kit"))
    assert releases.release_of(crates, release.program).functions == 2 * len(crates.lines)
    monkeypatch.setattr(proved, "kept", lambda name: None if name == "herd_pool" else proved.Proof(2, "a kit"))
    told = releases.release_of(crates, release.program).proved()
    assert (
        f"proved functions: {2 * len(crates.lines) - 2}, and those of herd_pool, which an earlier run proved\n" in told
    )
    monkeypatch.setattr(proved, "kept", lambda name: None)
    with pytest.raises(Stop, match="nothing is kept of what was proved"):
        releases.release_of(crates, release.program)


def test_desktop_entry(tmp_path: pathlib.Path) -> None:
    """What the menu calls is a word with an option that is there, and the entry is one that desktops read."""
    entry = TOP / "packaging/gudokeyi.desktop"
    called = re.search(r"^Exec=gudokeyi (\w+) (--\w+)$", entry.read_text(encoding="utf-8"), re.MULTILINE)
    assert called
    word = next(one for one in PROGRAMS[0].words if one.name == called[1])
    assert any(called[2] in one.flags for one in word.arguments)
    if shutil.which("desktop-file-validate"):
        done = subprocess.run(["desktop-file-validate", entry], capture_output=True, text=True)
        assert done.returncode == 0 and not done.stdout, done.stdout
