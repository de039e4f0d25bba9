#!/usr/bin/env python3
"""build.py PROGRAM: proves a program of crates.txt and the crates that it stands on, side by side, and builds it.

At a terminal it asks first, since that takes long. `build.py --at-terminal PROGRAM` builds nothing elsewhere.

Each crate is proved over a copy of just that crate and those below it, once those below it are proved; first those
that most others wait for. The library that comes of it is kept, so that a call after one that was interrupted begins
with those that aren't proved, and after a change with those that were changed and those above them. The program itself
is proved at each call. Standard error tells each crate as it begins and as it ends, with the minutes so far.

Beside the program is left what it was built of: its lines of crates.txt, and its sources with their checksums.
`build.py --of PROGRAM` prints what that is now, and builds nothing. Beside each crate is kept how many of its functions
were proved, and by which kit; `build.py --told FILE PROGRAM` keeps that of what the gate told into a file.

The status is 0 once the program is built, 1 where it can't be, 2 where PROGRAM is no program.
"""
from __future__ import annotations

import pathlib
import shutil
import sys

from building import proved
from building.asking import consents, is_at_terminal
from building.built import checksums, text_now
from building.crates import Crates
from building.ending import end_by_signals
from building.place import Place
from building.proving import Proving
from building.telling import Stop, Teller, reason


# what a first proof takes
HOW_LONG = "15 to 30 minutes on four cores, less where an earlier one has kept something"


def build(program: str, teller: Teller, at_terminal_alone: bool = False) -> bool:
    """Proves and builds a program, and returns whether all passed."""
    crates = Crates(program)
    teller.name, place = program, Place(crates)
    if not shutil.which("rt"):
        raise Stop("to build it, install the Rattle kit: its command rt isn't on the path")
    if is_at_terminal():
        question = f"{program} isn't built of what is here. To prove and build it takes {HOW_LONG}."
        if not consents(question, otherwise=not at_terminal_alone):
            raise Stop("nothing is built")
    elif at_terminal_alone:
        raise Stop(
            f"it isn't built of what is here, and only a person at a terminal begins that: ./build.py {program} proves and "
            f"builds it, in {HOW_LONG}"
        )
    else:
        teller.say(f"{program} is proved and built, in {HOW_LONG}")
    with place.alone(lambda: teller.say("another call is building here: waiting for that to end")) as has_waited:
        if has_waited and place.is_new():
            teller.say(f"{program} is built, by the other call")
            return True
        try:
            is_well = Proving(crates, place, teller).build()
        except KeyboardInterrupt:
            raise Stop("interrupted: the next call keeps the crates that are proved") from None
        if is_well:
            teller.say(f"{program} is built")
        return is_well


def keep_told(told: pathlib.Path, crates: Crates) -> None:
    """Keeps how many functions the gate told of, of each crate of a program."""
    kit = proved.kit()
    with open(told, encoding="utf-8", errors="replace") as lines:
        for name, functions in proved.counted_by_gate(lines):
            if name in crates.lines:
                proved.keep(name, functions, kit, checksums(name))


def main(words: list[str]) -> int:
    teller = Teller("build.py")
    end_by_signals()
    try:
        if words in (["-h"], ["--help"]):
            print(__doc__, end="")
            return 0
        if len(words) == 2 and words[0] == "--of":
            print(text_now(Crates(words[1])), end="")
            return 0
        if len(words) == 3 and words[0] == "--told":
            keep_told(pathlib.Path(words[1]), Crates(words[2]))
            return 0
        at_terminal_alone = words[:1] == ["--at-terminal"]
        names = words[1:] if at_terminal_alone else words
        if len(names) != 1 or names[0].startswith("-"):
            raise Stop("name one program to build, as in build.py herdbook", 2)
        return 0 if build(names[0], teller, at_terminal_alone) else 1
    except Stop as why:
        teller.write([f"{teller.name}: {why}\n"])
        return why.status
    except KeyboardInterrupt:
        teller.write([f"{teller.name}: interrupted\n"])
    except OSError as error:
        teller.write([f"{teller.name}: {reason(error)}\n"])
    return 1


if __name__ == "__main__":
    sys.exit(main(sys.argv[1:]))
