"""Makes all packages of a clone."""
from __future__ import annotations

import pathlib

import build
from building.crates import Crates
from building.packages.archive import write_archive
from building.packages.completion import completion
from building.packages.deb import write_deb
from building.packages.files import Files, text
from building.packages.manual import manual
from building.packages.release import Release, release_of, told_by
from building.packages.wheel import write_wheel
from building.packages.words import front_desk, register
from building.place import Place
from building.telling import Stop, Teller

PROGRAM = "herdbook"


def make(folder: pathlib.Path, teller: Teller) -> list[pathlib.Path]:
    """Writes them into a folder, each in place of the one that was there."""
    crates = Crates(PROGRAM)
    place = Place(crates)
    if place.is_new():
        teller.say(f"{place.program} is proved, and built of what is here")
    elif not build.build(PROGRAM, teller):
        raise Stop("nothing is made, since the program isn't proved")
    release = release_of(crates, place.program)
    shared = manuals_and_completions(release)
    folder.mkdir(exist_ok=True)
    wheel = write_wheel(release, shared, folder)
    return [write_deb(release, shared, folder), wheel, write_archive(release, wheel, folder)]


def manuals_and_completions(release: Release) -> Files:
    """The man page and the completion of each program, below `share`."""
    programs = front_desk(), register(lambda word: told_by([str(release.program), *[word] * bool(word), "--help"]))
    pages = {f"man/man1/{one.name}.1": text(manual(one, release.version, release.day)) for one in programs}
    return pages | {f"bash-completion/completions/{one.name}": text(completion(one)) for one in programs}
