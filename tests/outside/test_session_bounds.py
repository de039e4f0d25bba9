"""Sessions: how much memory requests and answers take at most, and that what they took is given back."""
from __future__ import annotations

import contextlib
import fcntl
import itertools
import os
import pathlib
import subprocess
import sys
import termios
import threading
import time
from collections.abc import Iterator, Mapping

from outside.books import animal
from outside.refusals import ALL
from outside.runs import SECONDS, Checks, fault, wrote

WORDS = ["session", "--desks", "1", "--inspectors", "1"]
LONGEST_RECORD = 1 << 20
MEGABYTE = 1 << 20
# so many requests with a field of this length count more than may wait
FIELD, MANY = 60_000, 4_700


class TestSessionBounds(Checks):
    def test_long_records(self) -> None:
        """A record of 1 MiB is read, and blank lines count; at one that is longer by a part the session breaks off."""
        longest = "b" * (LONGEST_RECORD - 1)
        for text, tag, name in (
            (longest + "\n", "", "Tag"), (longest + "b", "", "Tag"), ("\n" * (LONGEST_RECORD - 2) + "b\n", "b", "Addressee"),
        ):  # fmt: skip
            self.expect("1 MiB", wrote(f"{tag},fault,{name}\nclosed,0,0\n"), WORDS, text)
        first, part = f"a,desk,1,exit,{animal('M', 1)},2001-01-01,,,,,\n", 20_000
        for text in longest + "b" * part, "b," * LONGEST_RECORD, "\n" * (LONGEST_RECORD + part) + "b\n":
            for end in "\n" + first, "":
                told = fault("record 2: fault 11 Read", "a,1,refused,11\n")
                self.expect("more than 1 MiB", told, WORDS, first + text + end)

    def test_long_reports(self) -> None:
        """A report is made up to 64 MiB without tags, and a longer one is refused; what it took is given back."""
        numbers = [animal("MF"[one % 2], one) for one in range(3_000)]
        births = "".join(f"a{one},desk,1,birth,{number},2000-01-01,0,0,,1,\n" for one, number in enumerate(numbers))
        with self.held(WORDS) as process:
            assert process.stdin and process.stdout
            process.stdin.write(births.encode())
            process.stdin.flush()
            for _ in numbers:
                process.stdout.readline()
            for _ in range(3):
                process.stdin.write(f"q,inspector,1,relationships,{','.join(numbers)}\n".encode())
                process.stdin.flush()
                self.count(process.stdout.readline() == b"q,fault,TooLong\n", "3,000 animals")
            process.stdin.write(f"r,inspector,1,relationships,{','.join(numbers[:1_000])}\n".encode())
            process.stdin.flush()
            lines = sum(1 for _ in itertools.takewhile(lambda line: line != b"r,end,3000\n", process.stdout))
            self.count(lines == 500_500, f"1,000 animals: {lines} lines")
            self.count(peak(process) < 200 * MEGABYTE, f"reports took {peak(process)} bytes")

    def test_many_requests(self) -> None:
        """Requests of 256 MiB wait; then no more is read until answers are. None is lost."""
        count = 1_200_000
        asked = b"".join(b"a%d,desk,1,exit,HOLGBRM000000000001,2001-01-01,,,,,\n" % one for one in range(count))
        with self.held(WORDS) as process:
            assert process.stdin and process.stdout
            written = Written(process, asked)
            written.start()
            self.count(0 < written.at_rest() < len(asked), "all was read, though no answer was")
            self.count(peak(process) < 600 * MEGABYTE, f"requests took {peak(process)} bytes")
            out = process.stdout.read()
            lines = out.count(b"\n")
            # of so many steps the journal is full
            self.count(out.endswith(b"closed,1000000,0\n"), f"no end: {out[-60:]!r}")
            self.count(lines == count + 1, f"{lines} lines for {count} requests")

    def test_requests_give_back(self) -> None:
        """What a request counts is given back by whoever answers it, so that all are read in the end."""
        for words, name in ("q,inspector,1", "Question"), ("x", "Addressee"):
            with self.held(WORDS) as process:
                out = answers(process, f"{words},{'b' * FIELD}\n".encode(), MANY)
                self.count(out.count(f",fault,{name}\n".encode()) == MANY, f"{words}: {out.count(b'fault')} faults")
                self.count(out.endswith(b"\nclosed,0,0\n"), f"{words}: no end: {out[-60:]!r}")

    def test_requests_without_a_queue(self) -> None:
        """The same where the desk's queue is refused memory, and where that of faults is refused it too."""
        field = b"b" * FIELD
        asked = b"a,desk,1," + field + b"\n"
        # two requests for nobody let the queue of faults grow before growths are refused
        for before in 0, 2:
            first = [b"x," + field + b"\n"] * before
            nth = self.growth_of_a_place(first, asked)
            told = self.without_growths(nth, first, asked, 1)
            self.count(told == b"a,fault,Memory\nclosed,0,0\n", f"growth {nth} is no place in a queue: {told!r}")
            out = self.without_growths(nth, first, asked, MANY)
            self.count(
                out == b"a,fault,Memory\n" * MANY + b"closed,0,0\n", f"{out.count(b'Memory')} told: {out[-60:]!r}"
            )

    def growth_of_a_place(self, before: list[bytes], asked: bytes) -> int:
        """The last growth from which on a request's place in its queue is refused."""
        nth, later = 0, 1_000
        while later - nth > 1:
            middle = (nth + later) // 2
            told = self.without_growths(middle, before, asked, 1)
            if told.startswith(b"a,fault,") and not told.startswith(b"a,fault,Memory"):
                later = middle
            else:
                nth = middle
        return nth

    def without_growths(self, nth: int, before: list[bytes], asked: bytes, count: int) -> bytes:
        """What a session answers to so many requests, from whose nth growth on none is granted; the first ones, for
        nobody, are answered one by one."""
        refuse = {"LD_PRELOAD": str(self.refuser), "REFUSE": "growth", "REFUSE_NTH": str(nth), "REFUSE_LAST": str(ALL)}
        with self.held(WORDS, refuse) as process:
            assert process.stdin and process.stdout
            # until all threads wait
            time.sleep(0.05)
            with contextlib.suppress(BrokenPipeError):
                for request in before:
                    process.stdin.write(request)
                    process.stdin.flush()
                    if process.stdout.readline() != b"x,fault,Addressee\n":
                        return b""
            return answers(process, asked, count)

    def test_closed_while_requests_wait(self) -> None:
        """A session whose output is closed ends, though its reading waits until requests are answered."""
        with self.held(WORDS) as process:
            assert process.stdin and process.stdout and process.stderr
            # few answers have room
            fcntl.fcntl(process.stdout.fileno(), fcntl.F_SETPIPE_SZ, 4_096)
            written = Written(process, b"a" * 40 + b"," + b"b" * FIELD + b"\n", MANY + 100)
            written.start()
            self.count(written.at_rest() < written.all, "all was read, though no answer was")
            process.stdout.close()
            with contextlib.suppress(subprocess.TimeoutExpired):
                process.wait(20)
            self.count(process.poll() == 1, "the session goes on")
            process.kill()
            self.count(process.stderr.read() == b"herdbook: write fault\n", "a closed output")

    def test_a_byte_at_a_time(self) -> None:
        """A record isn't too long for being read byte by byte: what was read counts, not how much might have been."""
        with self.held(WORDS) as process:
            assert process.stdin and process.stdout
            with contextlib.suppress(BrokenPipeError):
                for byte in b"b" * 199 + b"\n":
                    os.write(process.stdin.fileno(), bytes([byte]))
                    while unread(process.stdin.fileno()) and process.poll() is None:
                        time.sleep(0.0002)
                process.stdin.close()
            self.count(process.stdout.read() == b",fault,Tag\nclosed,0,0\n", "200 bytes, one by one")

    def test_room_of_long_records(self) -> None:
        """What a long record took is given back once it is answered."""
        # each large block is the system's own, so that it is seen when it is given back
        with self.held(WORDS, {"MALLOC_MMAP_THRESHOLD_": "65536"}) as process:
            assert process.stdin and process.stdout
            taken = []
            for request in b"x,b\n", b"x," + b"b," * 520_000 + b"\n", b"x,b\n":
                process.stdin.write(request)
                process.stdin.flush()
                self.count(process.stdout.readline() == b"x,fault,Addressee\n", "a request for nobody")
                taken.append(memory(process, "VmRSS"))
            self.count(peak(process) > taken[0] + 4 * MEGABYTE, f"a long record took {peak(process)} bytes")
            self.count(taken[2] < taken[0] + 2 * MEGABYTE, f"a long record leaves {taken} bytes")

    @contextlib.contextmanager
    def held(self, words: list[str], env: Mapping[str, str] | None = None) -> Iterator[subprocess.Popen[bytes]]:
        """A session that is ended if it goes on for too long."""
        pipe = subprocess.PIPE
        with subprocess.Popen([self.program, *words], stdin=pipe, stdout=pipe, stderr=pipe, env=env) as process:
            timer = threading.Timer(SECONDS, process.kill)
            timer.start()
            try:
                yield process
            finally:
                process.kill()
                timer.cancel()


class Written(threading.Thread):
    """Writes a text to a session so often, on a thread, and closes the session's input behind it."""

    def __init__(self, process: subprocess.Popen[bytes], text: bytes, times: int = 1) -> None:
        super().__init__(daemon=True)
        assert process.stdin
        self.file = os.dup(process.stdin.fileno())
        process.stdin.close()
        self.text, self.times, self.all, self.done = memoryview(text), times, times * len(text), 0

    def run(self) -> None:
        with contextlib.suppress(BrokenPipeError):
            while self.done < self.all:
                at = self.done % len(self.text)
                self.done += os.write(self.file, self.text[at : at + 65_536])
        os.close(self.file)

    def at_rest(self) -> int:
        """How many bytes were written once no more are taken."""
        done = -1
        while done != self.done:
            done = self.done
            time.sleep(2)
        return done


def answers(process: subprocess.Popen[bytes], request: bytes, count: int) -> bytes:
    """All that a session answers to so many times the same request."""
    assert process.stdout
    Written(process, request, count).start()
    return process.stdout.read()


def unread(file: int) -> int:
    """How many bytes wait in a pipe."""
    return int.from_bytes(fcntl.ioctl(file, termios.FIONREAD, bytes(4)), sys.byteorder)


def memory(process: subprocess.Popen[bytes], name: str) -> int:
    """How much memory a process has, by the name of the system's own figure."""
    status = pathlib.Path(f"/proc/{process.pid}/status").read_text()
    return 1024 * int(next(line.split()[1] for line in status.splitlines() if line.startswith(name)))


def peak(process: subprocess.Popen[bytes]) -> int:
    """The most memory that a process had at any time."""
    return memory(process, "VmHWM")
