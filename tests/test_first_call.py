"""The build of the program: build.py, which proves its crates side by side, with a stand-in for rt; and who begins
it."""
from __future__ import annotations

import itertools
import os
import pathlib
import re
import signal
import sys
import time
import unittest.mock
from collections.abc import Callable, Iterator

import pytest

from building.machine import Machine
from copied_repository import BELOW, CRATES, PROGRAM, SECONDS, Repository, ended
from counting import Counts, counts_of

# what changes what the program was built of
CHANGES: dict[str, Callable[[Repository], object]] = {
    "a source is changed": lambda here: here.write("crates/herd_kinship/src/lib.rt", "// another crate\n"),
    "a source is added": lambda here: here.write("crates/herd_pool/specs/More.antt", "// a definition\n"),
    "a source is removed": lambda here: (here.top / "crates/herd_pool/specs/More.antt").unlink(),
    "a line of crates.txt is changed": lambda here: here.change_line("herd_report"),
    "it isn't known what it was built of": lambda here: (here.top / f"crates/{PROGRAM}/out/{PROGRAM}.built").unlink(),
}

# processors, free memory in GB; runs at once; processes of the leading crate alone, of it where nine are ready, and of
# another one beside it
SHARES = [
    (1, 60, 1, 1, 1, 0),
    (2, 24, 2, 2, 1, 1),
    (4, 24, 4, 4, 2, 1),
    (4, 8, 2, 3, 2, 1),
    (4, 4, 1, 1, 1, 0),
    (4, 2, 1, 1, 1, 0),
    (16, 60, 15, 4, 2, 1),
]


def in_order(noted: list[tuple[str, str]]) -> bool:
    """Whether each crate began once all below it had ended, and none began twice or lacked a library."""
    ended: set[str] = set()
    begun: list[str] = []
    for what, name in noted:
        if what == "begin" and BELOW[name] <= ended:
            begun.append(name)
        elif what == "end":
            ended.add(name)
        else:
            return False
    return len(begun) == len(set(begun))


def wait_until(is_so: Callable[[], bool]) -> None:
    """Waits until it is so, some minutes at most."""
    until = time.monotonic() + SECONDS
    while not is_so() and time.monotonic() < until:
        time.sleep(0.05)


def tells(err: str, *ends: str) -> bool:
    """Whether lines of standard error end so."""
    return all(any(line.endswith(end) for line in err.splitlines()) for end in ends)


class TestFirstCall:
    """Each method whose name begins with `test_` is a group of checks."""

    rooms: Iterator[pathlib.Path]
    counts: Counts

    @pytest.fixture(autouse=True)
    def begin(self, tmp_path: pathlib.Path, request: pytest.FixtureRequest) -> None:
        self.rooms = (tmp_path / str(count) for count in itertools.count())
        self.counts = counts_of(request.node)

    def count(self, right: object, what: object) -> None:
        self.counts.count(right, f"{what}")

    def test_builds(self) -> None:
        """A first call, one after each change of what the program was built of, and after each a call that builds
        nothing."""
        here = Repository(next(self.rooms))
        self.builds(here, "nothing is built")
        for why, change in CHANGES.items():
            change(here)
            self.builds(here, why)
        self.count(not any(here.rooms.iterdir()), "rooms are left")

    def builds(self, here: Repository, why: str) -> None:
        """A call that builds all, and one after it."""
        status, out, err = here.call()
        noted = here.noted()
        self.count((status, out) == (0, "is built\n"), f"{why}: {status} {out!r} {err!r}")
        self.count(in_order(noted) and {name for _, name in noted} == CRATES, f"{why}: {noted}")
        told = [f"min: proving {name}" for name in CRATES] + [f"min: {name} is proved" for name in CRATES]
        self.count(tells(err, *told, "herdbook is built"), f"{why}: {err!r}")
        self.count(here.kept() == CRATES - {PROGRAM}, f"{why}: {here.kept()}")
        self.builds_nothing(here, f"{why}: the next call")

    def builds_nothing(self, here: Repository, why: str) -> None:
        """A call that runs the program as it is, without Python."""
        done = here.call_without_python()
        self.count(done == (0, "is built\n", "") and not here.noted(), f"{why}: {done}")

    def test_builds_nothing(self) -> None:
        """What changes nothing of what the program was built of."""
        here = Repository(next(self.rooms))
        here.call()
        here.noted()
        (here.top / "crates/herd_kinship/src/lib.rt").touch()
        self.builds_nothing(here, "a source that was written again")
        here.add_line("my_own_crate: herd_report herd_animal anyhow")
        self.builds_nothing(here, "a line for somebody's own crate")
        here.write("crates/my_own_crate/src/main.rt", "// a program\n")
        here.write("crates/herd_kinship/must-fail/wrong.edit", "file: src/lib.rt\n")
        self.builds_nothing(here, "files that aren't built")
        of = ended(here.begin(sys.executable, str(here.top / "build.py"), "--of", PROGRAM))
        built = (here.top / f"crates/{PROGRAM}/out/{PROGRAM}.built").read_text(encoding="utf-8")
        self.count(of == (0, built, ""), f"what is told of the program: {of}; left was {built!r}")

    def test_changes_meanwhile(self) -> None:
        """A source that is changed once it is proved, before the build ends, is noticed by the next call."""
        here = Repository(next(self.rooms))
        (here.notes / f"{PROGRAM}.seconds").write_text("2", encoding="utf-8")
        call = here.begin(sys.executable, str(here.top / "build.py"), PROGRAM)
        wait_until(lambda: "herd_kinship" in here.kept())
        here.write("crates/herd_kinship/src/lib.rt", "// another crate\n")
        done = ended(call)
        self.count(done[0] == 0, f"a change meanwhile: {done}")
        here.noted()
        self.builds(here, "a source was changed meanwhile")

    def test_stands_on_itself(self) -> None:
        """Crates that stand on themselves are told, and nothing is begun."""
        here = Repository(next(self.rooms))
        text = (here.top / "crates.txt").read_text(encoding="utf-8")
        here.write("crates.txt", text.replace("herd_animal: ", "herd_animal: herd_frozen "))
        status, out, err = here.call()
        self.count(status == 1 and not out and not here.noted(), f"a cycle: {status} {out!r}")
        told = "crates.txt has crates that stand on themselves: herd_"
        self.count(told in err and "herd_animal" in err and "herd_frozen" in err, f"a cycle: {err!r}")

    def test_fails(self) -> None:
        """A crate that isn't proved: no other is begun, those proved are kept, and the next call goes on."""
        here = Repository(next(self.rooms))
        (here.notes / "herd_advice.fails").touch()
        (here.notes / "herd_pedigree.seconds").write_text("5", encoding="utf-8")
        status, out, err = here.call()
        begun = {name for what, name in here.noted() if what == "begin"}
        self.count((status, out) == (1, ""), f"a crate that fails: {status} {out!r}")
        why = "herd_advice is not proved: rt check in crates/herd_advice says why"
        self.count(tells(err, "a contract isn't met", why, "still proving herd_pedigree"), err)
        later = begun & {
            "herd_book_pool",
            "herd_register",
            "herd_command_file",
            "herd_office",
            "herd_report",
            "herd_orders",
            "herd_clerks",
            "herd_command_line",
            "herd_session",
            "herdbook",
        }
        self.count(not later, f"begun in spite of a crate that failed: {later}")
        below = {
            "herd_animal",
            "herd_lineage",
            "herd_frozen",
            "herd_kinship",
            "herd_pruned",
            "herd_pedigree",
        }
        self.count(below <= here.kept() == begun - {"herd_advice"}, f"begun: {begun}, kept: {here.kept()}")
        (here.notes / "herd_advice.fails").unlink()
        self.count(here.call()[:2] == (0, "is built\n"), "the call after one that failed")

    def test_ends(self) -> None:
        """Calls ended by Control-C and by a signal to build.py alone: their runs end, and what is proved is kept."""
        for number in (signal.SIGINT, signal.SIGTERM):
            here = Repository(next(self.rooms))
            slow = here.notes / "herd_pedigree.seconds"
            slow.write_text(f"{10 * SECONDS}", encoding="utf-8")
            is_key = number == signal.SIGINT
            call = here.begin_program() if is_key else here.begin(sys.executable, str(here.top / "build.py"), PROGRAM)
            wait_until(lambda: here.has_begun("herd_pedigree"))
            os.killpg(call.pid, number) if is_key else call.send_signal(number)
            status, _, err = ended(call)
            self.count(status if is_key else status == 1, f"{number.name}: status {status}")
            self.count("interrupted: the next call keeps the crates that are proved" in err, f"{number.name}: {err!r}")
            self.count({"herd_animal", "herd_frozen", "herd_kinship"} <= here.kept(), f"{number.name}: {here.kept()}")
            self.count(not here.under_way(), f"{number.name}: a run goes on")
            self.count(not any(here.rooms.iterdir()), f"{number.name}: rooms are left")
            slow.unlink()
            self.count(here.call()[:2] == (0, "is built\n"), f"{number.name}: the call after it")

    def test_waits(self) -> None:
        """Two calls at once: one builds, the other waits for it."""
        here = Repository(next(self.rooms))
        calls = [here.begin_program(), here.begin_program()]
        done = [ended(call) for call in calls]
        self.count([(status, out) for status, out, _ in done] == [(0, "is built\n")] * 2, done)
        self.count(in_order(here.noted()), "two calls prove each crate once")

    def test_asks(self) -> None:
        """At a terminal the program's call tells how long a proof takes, and asks; elsewhere it says what to do."""
        here = Repository(next(self.rooms))
        status, out, err = here.call_without_building()
        self.count((status, out, err.count("\n")) == (1, "", 1), f"without a terminal: {status} {out!r} {err!r}")
        self.count("only a person at a terminal begins that: ./build.py herdbook proves" in err, err)
        for answer in "\n", "n\n", "what?\n":
            status, told = here.call_at_terminal(answer, "herdbook", "is", "built")
            asked = "takes 15 to 30 minutes on four cores" in told and "Begin? [y/N, in 30 seconds no]" in told
            self.count(status == 1 and asked and "nothing is built" in told, f"{answer!r}: {status} {told!r}")
        self.count(not here.noted(), "nothing is begun without a yes")
        status, told = here.call_at_terminal("y\n", "herdbook", "is", "built")
        self.count(status == 0 and told.endswith("is built\r\n"), f"y: {status} {told!r}")
        self.count({name for _, name in here.noted()} == CRATES, "a yes builds all")
        status, told = here.call_at_terminal("\n", "build.py", PROGRAM)
        self.count(status == 0 and "Begin? [Y/n, in 30 seconds yes]" in told, f"build.py: {status} {told!r}")

    def test_what_was_proved(self) -> None:
        """How many functions of each crate were proved, by which kit; nothing is known of other sources than those."""
        here = Repository(next(self.rooms))
        here.call()
        kept = here.top / "crates/herd_pool/out/proved"
        self.count(re.fullmatch(r"functions=7 sources=\w{128} kit=a kit\n", kept.read_text()), kept.read_text())
        told = here.write("gate", "logic=proved functions=9 sum=1\nrt: herd_pool proved\nrt: herd_animal proved\n")
        done = ended(here.begin(sys.executable, str(here.top / "build.py"), "--told", str(told), PROGRAM))
        self.count(done == (0, "", "") and kept.read_text().startswith("functions=9 "), f"{done}: {kept.read_text()}")
        known = [sys.executable, "-c", "from building import proved; print(proved.kept('herd_pool'))"]
        self.count("Proof(functions=9, kit='a kit')" in ended(here.begin(*known, at=here.top))[1], "what is known")
        kept.unlink()
        self.count("functions=9" in ended(here.begin(*known, at=here.top))[1], "what another clone knows")
        here.write("crates/herd_pool/src/lib.rt", "// another crate\n")
        self.count(ended(here.begin(*known, at=here.top))[1] == "None\n", "what is known of other sources")

    def test_shares(self) -> None:
        """What a machine's processors and free memory give: runs at once, and the processes of each."""
        for processors, free, *wanted in SHARES:
            with (
                unittest.mock.patch("os.sched_getaffinity", return_value=range(processors)),
                unittest.mock.patch("building.machine.free_memory", return_value=free * 10**9),
            ):
                machine = Machine()
            leading = machine.jobs([], 9, leads=True)
            got = [machine.most_runs, machine.jobs([], 1, leads=True), leading, machine.jobs([leading], 8, leads=False)]
            self.count(got == wanted, f"{processors} processors, {free} GB: {got}")
            full = machine.jobs([1] * machine.most_runs, 1, leads=True)
            self.count(full == 0, f"{processors} processors, {free} GB: {full} beside all")
