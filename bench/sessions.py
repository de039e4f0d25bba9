#!/usr/bin/env python3
"""Measures what a session takes for births, and how long a command waits for its answer beside lists.

    sessions.sh HERDBOOK [--births 60000] [--runs 5] [--desks 1,4,16] [--asked 2000]

HERDBOOK is the executable of the crate herdbook, as `rt run` leaves it; nothing is proved or built.

The first table: births of founders, asked at desks in turn, from a file and to a file. `cpu` is the
least processor time of several runs; `by file` is that time by what `herdbook file` takes for the
same births; `memory` is the most that a run had.

The second: so many births are filed, and then exits of an animal that isn't there are asked at a
desk, one at a time, each once the answer before is read, while an inspector lists all animals
without pause (`beside`), and without (`alone`). Times are of this script's clock, from the writing
of a request to the reading of its answer. The status is 1 where an answer isn't as it is to be.
"""

from __future__ import annotations

import argparse
import subprocess
import sys
import tempfile
import threading
import time
from typing import IO

from command_file import limit_words
from office import measured, write_births

ABSENT = "HOLGBRM999999999999"


def write_requests(path: str, births: int, desks: int) -> None:
    """The births of `write_births` as requests at desks in turn."""
    with open(path, "w", encoding="ascii") as file:
        for one in range(births):
            sex = "MF"[one % 2]
            file.write(f"a{one},desk,{1 + one % desks},birth,HOLGBR{sex}{one:012},2000-01-01,0,0,,1,\n")


def least_of(words: list[str], path: str, runs: int) -> tuple[float, int, str]:
    """The least processor time, the most memory, and the end of the output."""
    least, most, out = float("inf"), 0, ""
    for _ in range(runs):
        with open(path, "rb") as given:
            out, _, _, cpu, memory = measured(words, given)
        least, most = min(least, cpu), max(most, memory)
    return least, most, out


def births_table(herdbook: str, births: int, runs: int, desks: list[int]) -> None:
    with tempfile.NamedTemporaryFile(suffix=".csv") as file:
        write_births(file.name, births)
        by_file, memory, _ = least_of([herdbook, "file", *limit_words(births, births)], file.name, runs)
        print(f"{births} births                 cpu  by file   memory")
        print(f"file              {by_file:14.3f} s        {memory / 1e6:6.0f} MB")
        for count in desks:
            write_requests(file.name, births, count)
            words = [herdbook, "session", "--desks", str(count), *limit_words(births, births)]
            cpu, memory, out = least_of(words, file.name, runs)
            if not out.endswith(f"closed,{births},{births}\n"):
                sys.exit(f"the session ended with {out[-80:]!r}")
            print(f"session, {count:2} desks {cpu:14.3f} s {cpu / by_file:6.2f} {memory / 1e6:6.0f} MB")


class Listing:
    """Reads a session's answers: it asks for the next list once one has come, and tells when a command's comes."""

    def __init__(self, process: subprocess.Popen[bytes]) -> None:
        assert process.stdin and process.stdout
        self.given: IO[bytes] = process.stdin
        self.taken: IO[bytes] = process.stdout
        self.writing = threading.Lock()
        self.answered = threading.Semaphore(0)
        self.lists, self.goes_on, self.last = 0, False, b""
        threading.Thread(target=self.read, daemon=True).start()

    def write(self, line: bytes) -> None:
        with self.writing:
            self.given.write(line)
            self.given.flush()

    def ask_list(self) -> None:
        self.write(b"q,inspector,1,inbreeding\n")

    def read(self) -> None:
        for line in self.taken:
            if line.startswith(b"a,"):
                self.last = line
                self.answered.release()
            elif line.startswith(b"q,end,"):
                self.lists += 1
                if self.goes_on:
                    self.ask_list()


def waits(herdbook: str, births: int, asked: int, beside: bool) -> tuple[list[float], int]:
    """How long each command waits, sorted, and how many lists were read beside them."""
    limits = limit_words(births, births + asked + 1)
    words = [herdbook, "session", "--desks", "1", "--inspectors", "1", *limits]
    process = subprocess.Popen(words, stdin=subprocess.PIPE, stdout=subprocess.PIPE, bufsize=1 << 20)
    listing = Listing(process)
    for one in range(births):
        listing.given.write(f"b,desk,1,birth,HOLGBR{'MF'[one % 2]}{one:012},2000-01-01,0,0,,1,\n".encode())
    # its answer comes once all births are filed
    listing.write(f"a,desk,1,exit,{ABSENT},2001-01-01,,,,,\n".encode())
    listing.answered.acquire()
    listing.goes_on = beside
    if beside:
        listing.ask_list()
    times: list[float] = []
    for _ in range(asked):
        start = time.perf_counter()
        listing.write(f"a,desk,1,exit,{ABSENT},2001-01-01,,,,,\n".encode())
        listing.answered.acquire()
        times.append(time.perf_counter() - start)
        if not listing.last.endswith(b",refused,11\n"):
            sys.exit(f"a command is answered {listing.last!r}")
    listing.goes_on = False
    listing.given.close()
    process.wait()
    return sorted(times), listing.lists


def waits_table(herdbook: str, births: int, asked: int) -> None:
    print(f"\n{asked} commands, {births} animals   median   99 of 100   longest     lists")
    for name, beside in ("alone", False), ("beside", True):
        times, lists = waits(herdbook, births, asked, beside)
        median, high, longest = (1e3 * times[int(part * (len(times) - 1))] for part in (0.5, 0.99, 1))
        print(f"{name:26} {median:8.3f} ms {high:8.3f} ms {longest:7.3f} ms {lists:7}")


def main() -> None:
    parser = argparse.ArgumentParser(description="Measures sessions.", usage=(__doc__ or "").split("\n\n")[1].strip())
    parser.add_argument("herdbook")
    parser.add_argument("--births", type=int, default=60_000)
    parser.add_argument("--runs", type=int, default=5)
    parser.add_argument("--desks", default="1,4,16")
    parser.add_argument("--asked", type=int, default=2_000)
    given = parser.parse_args()
    births_table(given.herdbook, given.births, given.runs, [int(it) for it in given.desks.split(",")])
    waits_table(given.herdbook, given.births, given.asked)


if __name__ == "__main__":
    main()
