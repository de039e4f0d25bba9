"""Sessions whose calls are refused, each in turn, and clients that break off."""
from __future__ import annotations

import collections
import contextlib
import os
import subprocess
import threading
import time

from outside.books import animal
from outside.refusals import ALL, Refusals
from outside.runs import Done, fault

WORDS = ["session", "--desks", "2", "--inspectors", "2"]
SIRE, DAM, SON, DAUGHTER = animal("M", 1), animal("F", 2), animal("M", 3), animal("F", 4)
# a session whose answers are known but for their order
SMALL = f"""\
a1,desk,1,birth,{SIRE},2000-01-01,0,0,,1,
a2,desk,1,birth,{DAM},2000-01-01,0,0,,1,
a3,desk,1,birth,{SON},2003-01-01,{SIRE},{DAM},,1,
a4,desk,1,birth,{SON},2003-01-01,{SIRE},{DAM},,1,
a5,desk,2,exit,{DAUGHTER},2003-01-01,,,,,
q1,inspector,1,inbreeding
q2,inspector,2,certificate,{SIRE}
q3,inspector,1,mating,{DAM},{SIRE},{SON}
q4,inspector,2,seen
w1,desk,3
"""


class TestSessionRefusals(Refusals):
    def test_refused_growths(self) -> None:
        """A growth that is refused is told at the start, of a request, or of reading one; nothing is filed twice."""
        refusals: list[dict[str, object]] = [{"REFUSE": "growth"}, {"REFUSE": "growth", "REFUSE_LAST": ALL}]
        for refuse in refusals:
            right = Growths()
            refused = self.until_none("growth", WORDS, SMALL, refuse, right, is_answered)
            self.count(refused, "no growth was refused")
            # a thread's start takes two growths, and there are five; others may come between
            self.count(right.unstarted <= 16, f"{right.unstarted} growths are told as want of a thread")

    def test_refused_reads(self) -> None:
        def is_told(wanted: Done, done: Done) -> bool:
            return done.status == 1 and done.err.startswith(b"herdbook: record ") and done.err.endswith(b" 11 Read\n")

        refused = self.until_none("read", WORDS, SMALL, {"REFUSE": "read"}, is_told, is_answered)
        self.count(refused, "no read was refused")

    def test_refused_writes(self) -> None:
        """A write that fails ends the session; what was answered stays."""
        refusals: list[dict[str, object]] = [{"REFUSE": "write"}, {"REFUSE": "write", "REFUSE_AS": 0}]
        for refuse in refusals:
            refused = self.until_none("write", WORDS, SMALL, refuse, is_write_fault, is_answered)
            self.count(refused, "no write was refused")
        with open("/dev/full", "wb") as full:
            self.expect("a full disk", fault("write fault"), WORDS, SMALL, out=full)
        every = {"REFUSE": "write", "REFUSE_NTH": 1, "REFUSE_LAST": ALL, "REFUSE_AS": 1}
        one = ["session", "--desks", "1", "--inspectors", "1"]
        text = "".join(line for line in SMALL.splitlines(keepends=True) if line.startswith("a") and ",1," in line)
        self.expect("a byte a write", self.run(one, text), one, text, refuse=every)

    def test_refused_threads(self) -> None:
        for desks, inspectors in (2, 2), (4, 4), (3, 1), (16, 16):
            words = ["session", "--desks", str(desks), "--inspectors", str(inspectors)]
            # one more tells the faults of requests for nobody
            threads = desks + inspectors + 1
            refused = self.until_none("thread", words, SMALL, {"REFUSE": "thread"}, is_no_thread, is_answered)
            self.count(refused == threads, f"{refused} threads were started: {words}")

    def test_unheard(self) -> None:
        """A client that stops reading stops its answers, and loses none of them once it reads again."""
        count = 30_000
        lines = b"".join(
            b"a%d,desk,%d,exit,%s,2000-01-01,,,,,\n" % (one, 1 + one % 4, SIRE.encode()) for one in range(count)
        )
        process = subprocess.Popen([self.program, "session"], stdin=subprocess.PIPE, stdout=subprocess.PIPE)
        assert process.stdin and process.stdout
        # all requests are taken while nothing is read
        process.stdin.write(lines)
        process.stdin.close()
        time.sleep(0.2)
        self.count(process.poll() is None, "the session ended though its answers weren't read")
        out = process.stdout.read().decode().splitlines()
        serials = sorted(int(line.split(",")[1]) for line in out[:-1])
        self.count(serials == list(range(1, count + 1)) and out[-1] == f"closed,{count},0", f"unheard: {out[-1:]}")
        process.wait()

    def test_unheard_faults(self) -> None:
        """Requests are read whether their answers are or not, those that are wrong too, whoever tells why."""
        count, good = 200_000, b"desk,1,exit,%s,2000-01-01,,,,," % SIRE.encode()
        wrong = [
            (b"Tag", b"a_1,desk,1"), (b"Addressee", b"%s,clerk"), (b"NoDesk", b"%s,desk,99"),
            (b"NoInspector", b"%s,inspector,99"), (b"Kind", b"%s,desk,2,sale,,,,,,,"), (b"Fields", b"%s,desk,3,birth"),
            (b"Question", b"%s,inspector,1,sell"), (b"Animal", b"%s,inspector,2,certificate,x"),
            (b"NotRegistered", b"%s,inspector,3,coefficient," + SIRE.encode()),
        ]  # fmt: skip
        asked = [wrong[at % 100] if at % 100 < len(wrong) else (b"", b"%s," + good) for at in range(count)]
        lines = b"".join((line % b"t%d" % at if b"%s" in line else line) + b"\n" for at, (_, line) in enumerate(asked))
        with subprocess.Popen([self.program, "session"], stdin=subprocess.PIPE, stdout=subprocess.PIPE) as process:
            assert process.stdin and process.stdout
            timer = threading.Timer(30, process.kill)
            timer.start()
            with contextlib.suppress(BrokenPipeError):
                process.stdin.write(lines)
                process.stdin.close()
            # nothing is read before all is written
            out = process.stdout.read().splitlines()
            timer.cancel()
        self.count(process.returncode == 0, f"the session ended with status {process.returncode}")
        told = collections.Counter(line.split(b",")[2] for line in out if b",fault," in line)
        self.count(told == {name: count // 100 for name, _ in wrong}, f"faults: {told}")
        steps = count - sum(told.values())
        self.count(out[-1:] == [b"closed,%d,0" % steps] and len(out) == count + 1, f"unheard: {out[-1:]}, {len(out)}")

    def test_broken_pipe(self) -> None:
        """Once its output is closed a session ends at the next request."""
        reader, writer = os.pipe()
        process = subprocess.Popen(
            [self.program, "session"], stdin=subprocess.PIPE, stdout=writer, stderr=subprocess.PIPE
        )
        os.close(writer)
        assert process.stdin and process.stderr
        process.stdin.write(SMALL.splitlines(keepends=True)[0].encode())
        process.stdin.flush()
        self.count(os.read(reader, 99) == b"a1,1,accepted\n", "the first answer")
        os.close(reader)
        try:
            for line in SMALL.splitlines(keepends=True) * 20:
                process.stdin.write(line.encode())
                process.stdin.flush()
                time.sleep(0.005)
        except BrokenPipeError:
            pass
        told = process.stderr.read()
        self.count(process.wait() == 1 and told == b"herdbook: write fault\n", f"a broken pipe: {told!r}")

    def test_desk_left(self) -> None:
        """Once a write has failed a session ends at the next request of an input that doesn't end, whoever met the
        failed write and whomever the request is for."""
        desk, inspector = b"a,desk,1,exit,%s,2000-01-01,,,,,\n" % SIRE.encode(), b"q,inspector,2,seen\n"
        # of an animal that none is, and nothing that an inspector answers: their faults are written
        no_exit, nothing = b"a,desk,1,exit,x,2000-01-01,,,,,\n", b"q,inspector,2,nothing\n"
        for first, next in (
            (desk, inspector), (inspector, desk), (desk, desk), (inspector, inspector), (desk, b"\"\n\"\n"),
            (no_exit, inspector), (nothing, desk),
        ):  # fmt: skip
            # the first answer may not have been written yet
            self.count(any(ended_at_next(self.program, first, next) for _ in range(5)), f"goes on: {first!r}, {next!r}")


def ended_at_next(program: str, first: bytes, next: bytes) -> bool:
    """Whether a session whose output is closed ends with status 1 at the second request, which comes a little later."""
    reader, writer = os.pipe()
    words = [program, "session", "--desks", "16", "--inspectors", "16"]
    process = subprocess.Popen(words, stdin=subprocess.PIPE, stdout=writer, stderr=subprocess.DEVNULL)
    os.close(writer)
    os.close(reader)
    assert process.stdin
    try:
        process.stdin.write(first)
        process.stdin.flush()
        time.sleep(0.2)
        process.stdin.write(next)
        process.stdin.flush()
        return process.wait(2) == 1
    except subprocess.TimeoutExpired:
        return False
    finally:
        process.kill()
        with contextlib.suppress(BrokenPipeError):
            process.stdin.close()
        process.wait()


def is_no_thread(wanted: Done, done: Done) -> bool:
    return done == fault("no thread")


def is_write_fault(wanted: Done, done: Done) -> bool:
    """What was written are lines of answers, of which the last may be cut."""
    tags = {line.split(",")[0] for line in SMALL.splitlines()}
    whole = done.out.decode().splitlines(keepends=True)
    is_known = all(line.split(",")[0] in tags for line in whole if line.endswith("\n"))
    return done.status == 1 and done.err == b"herdbook: write fault\n" and is_known


def is_answered(wanted: Done, done: Done) -> bool:
    """Each request has one answer, and the last line tells the steps."""
    lines = done.out.decode().splitlines()
    tags = [line.split(",")[0] for line in lines if ",end," in line or ",fault," in line or line.startswith("a")]
    asked = [line.split(",")[0] for line in SMALL.splitlines()]
    steps = sum(line.startswith("a") and ",fault," not in line for line in lines)
    is_closed = bool(lines) and lines[-1].startswith(f"closed,{steps},")
    return done.status == 0 and not done.err and sorted(tags) == sorted(asked) and is_closed


class Growths:
    """What a session may answer whose nth growth is refused; and how many were told as want of a thread."""

    def __init__(self) -> None:
        self.unstarted = 0

    def __call__(self, wanted: Done, done: Done) -> bool:
        self.unstarted += done == fault("no thread")
        return is_right_without_memory(wanted, done)


def is_right_without_memory(wanted: Done, done: Done) -> bool:
    """The session wasn't begun, or a request couldn't be read, or each request has one answer."""
    if done.status == 1:
        is_begun = done.err not in (b"herdbook: no memory\n", b"herdbook: no thread\n")
        is_unread = done.err.startswith(b"herdbook: record ") and done.err.endswith(b": fault 13 Memory\n")
        return is_unread or not is_begun and not done.out
    faults = {line for line in done.out.decode().splitlines() if ",fault," in line}
    told = {line for line in faults if line.endswith(",fault,Memory")} | {"w1,fault,NoDesk", "q2,fault,NotRegistered"}
    return is_answered(wanted, done) and faults <= told
