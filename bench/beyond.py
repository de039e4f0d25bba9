#!/usr/bin/env python3
"""Runs the program beside native ones on books of up to millions of animals.

    beyond.sh PROGRAM [--sizes 250000,1000000,4000000] [--shapes narrow,dairy,broad] [--workers 4] [--runs 2]
              [--corrections 20] [--work FOLDER]

PROGRAM is the executable of the crate herdbook, as `rt run` leaves it; nothing is proved or built. Lines for each book:

    file         the replies, beside the native program's
    list         `inbreeding` by one worker, beside the native list of the same method (exact-colleau-lists)
    workers      `inbreeding` by several workers, by the clock
    certificate  of the youngest animal
    coefficient  of the youngest animal, asked in a session once its births are filed
    correction   of the parents of an early sire, to older animals and back, each of which may change the depth of
                 all its descendants: the processor time of one

`cpu` is the least processor time of the runs, which are done in turn with those that they stand beside, and `MB` the
most memory, never less than this script's. A ratio stands before the greatest that it is to be: of processor time by the native program's, of `workers` by the clock to `list`, of
`certificate` to `file`, and of `coefficient` to the session without the question; and the bytes of memory for each
animal. The status is 1 where the native program writes other bytes, or a ratio is greater than it is to be. """

from __future__ import annotations

import argparse
import heapq
import os
import shutil
import subprocess
import sys
import threading
from typing import Iterator, NamedTuple

from bench import baseline, digest, ran
from command_file import command_file, limit_words, work_folder

ABSENT = "HOLGBRM999999999999"


class Least(NamedTuple):
    """The least seconds of several runs, of the processor and of the clock, the most memory, and a sum of the
    output."""

    processor: float
    wall: float
    memory: int
    text: str


class Birth(NamedTuple):
    """A birth of a command file."""

    day: str
    number: str
    sire: str


class Book:
    """A command file of births, and the program that is run on it. It keeps no birth, since what this script has counts
    as memory of the runs."""

    def __init__(self, program: str, native: str, file: str, said: argparse.Namespace) -> None:
        self.program, self.native, self.file, self.runs = program, native, file, said.runs
        self.corrections, self.workers = said.corrections, said.workers
        self.out = os.path.join(said.work, "beyond.out")
        self.changed = os.path.join(said.work, "beyond.csv")
        self.animals = sum(1 for _ in self.births())
        self.youngest = max(self.births()).number
        # two steps for each correction, and a command that asks whether all births are filed
        self.limits = limit_words(self.animals, self.animals + 2 * self.corrections + 1)

    def births(self) -> Iterator[Birth]:
        with open(self.file, encoding="ascii") as lines:
            next(lines)
            for line in lines:
                _, number, day, sire, _ = line.split(",", 4)
                yield Birth(day, number, sire)

    def least(self, *calls: list[str]) -> list[Least]:
        """Of each call, done in turn with the others."""
        rounds = [[self.run(words) for words in calls] for _ in range(self.runs)]
        return [
            Least(min(it.processor for it in runs), min(it.wall for it in runs), max(it.memory for it in runs), runs[0].text)
            for runs in zip(*rounds)
        ]

    def run(self, words: list[str], file: str = "") -> Least:
        done = ran(words, file or self.file, self.out)
        if done.status:
            sys.exit(f"{words} ended with status {done.status}: {done.told.strip()}")
        return Least(done.processor, done.wall, done.memory, digest(self.out))

    def ours(self, *words: str) -> list[str]:
        return [self.program, *words, *self.limits]

    def theirs(self, mode: str) -> list[str]:
        return [self.native, mode, "--animals", str(self.animals)]

    def told(self, name: str, least: Least, ratio: float | None, most: float, bytes_most: int = 0) -> bool:
        """Prints a line, and returns whether its ratios are no greater than they are to be."""
        each = least.memory / self.animals
        line = f"  {name:12} cpu {least.processor:8.2f} s  clock {least.wall:8.2f} s  {least.memory / 1e6:7.0f} MB"
        if ratio is not None:
            line += f"   {ratio:5.2f} ({most})"
        if bytes_most:
            line += f"  {each:5.0f} bytes ({bytes_most})"
        print(line, flush=True)
        return (ratio is None or ratio <= most) and (not bytes_most or each <= bytes_most)

    def compare(self) -> bool:
        """All lines of the book; whether the bytes are the native program's and all ratios small enough."""
        file, native_file, shown = self.least(
            self.ours("file"), self.theirs("file"), self.ours("certificate", self.youngest)
        )
        well = self.told("file", file, file.processor / native_file.processor, 1.2, 190)
        one, native_list, more = self.least(
            self.ours("inbreeding"),
            self.theirs("exact-colleau-lists"),
            self.ours("inbreeding", "--workers", str(self.workers)),
        )
        well &= self.told("list", one, one.processor / native_list.processor, 1.2, 270)
        well &= self.told("workers", more, more.wall / one.wall, 1.0)
        well &= self.told("certificate", shown, shown.processor / file.processor, 1.3)
        well &= self.coefficient()
        well &= self.correction(file)
        same = file.text == native_file.text and one.text == native_list.text == more.text
        if not same:
            print("  OTHER BYTES")
        return well and same

    def coefficient(self) -> bool:
        with open(self.file, encoding="ascii") as births, open(self.changed, "w", encoding="ascii") as requests:
            next(births)
            requests.writelines(f"b,desk,1,{line.rstrip()},\n" for line in births)
        rounds = [(self.session(False), self.session(True)) for _ in range(self.runs)]
        alone, asked = min(one for one, _ in rounds), min(one for _, one in rounds)
        print(f"  coefficient  cpu {asked:8.2f} s{'':32} {asked / alone:5.2f} (1.3)", flush=True)
        return asked <= 1.3 * alone

    def session(self, question: bool) -> float:
        """The processor time of a session in which all births are filed, and the question is asked or not."""
        words = [self.program, "session", "--desks", "1", "--inspectors", "1", *self.limits]
        child = subprocess.Popen(words, stdin=subprocess.PIPE, stdout=subprocess.PIPE, bufsize=1 << 20)
        assert child.stdin and child.stdout
        answers, filed = child.stdout, threading.Event()
        found: list[bytes] = []

        def read() -> None:
            for line in answers:
                if line.startswith(b"w,"):
                    filed.set()
                elif line.startswith(b"c,"):
                    found.append(line)

        reader = threading.Thread(target=read, daemon=True)
        reader.start()
        with open(self.changed, "rb") as requests:
            shutil.copyfileobj(requests, child.stdin, 1 << 20)
        # its answer comes once all births are filed
        child.stdin.write(f"w,desk,1,exit,{ABSENT},2001-01-01,,,,,\n".encode())
        child.stdin.flush()
        filed.wait()
        if question:
            child.stdin.write(f"c,inspector,1,coefficient,{self.youngest}\n".encode())
        child.stdin.close()
        reader.join()
        _, status, used = os.wait4(child.pid, 0)
        child.returncode = os.waitstatus_to_exitcode(status)
        if child.returncode or len(found) != 2 * question:
            sys.exit(f"a session ended with status {child.returncode} and the answers {found}")
        return float(used.ru_utime + used.ru_stime)

    def early(self) -> tuple[str, str, str]:
        """The oldest male and female, and the oldest sire of early calves that is younger than both."""
        male, female = (min(it for it in self.births() if it.number[6] == sex) for sex in "MF")
        first = heapq.nsmallest(1000, (it for it in self.births() if it.sire[6:7] == "M"))
        sires = {it.sire for it in first}
        days = (it for it in self.births() if it.number in sires and it.day > max(male.day, female.day))
        return male.number, female.number, min(days).number

    def correction(self, file: Least) -> bool:
        """The parents of an early sire are set, and taken away again."""
        male, female, sire = self.early()
        shutil.copyfile(self.file, self.changed)
        with open(self.changed, "a", encoding="ascii") as commands:
            for _ in range(self.corrections):
                commands.write(f"parents,{sire},,{male},{female},,\n")
                commands.write(f"parents,{sire},,0,0,,\n")
        corrected = min(self.run(self.ours("file"), self.changed).processor for _ in range(self.runs))
        with open(self.out, "rb") as replies:
            replies.seek(-200, os.SEEK_END)
            last = replies.read().split(b"\n")[-3:-1]
        each = (corrected - file.processor) / (2 * self.corrections)
        answers = " and ".join(it.split(b",", 1)[1].decode() for it in last)
        print(f"  correction   cpu {1000 * each:8.2f} ms each, {answers}", flush=True)
        return True


def main() -> int:
    takes = argparse.ArgumentParser(description=__doc__, formatter_class=argparse.RawDescriptionHelpFormatter)
    takes.add_argument("program")
    takes.add_argument("--sizes", default="250000,1000000,4000000")
    takes.add_argument("--shapes", default="narrow,dairy,broad")
    takes.add_argument("--workers", type=int, default=4)
    takes.add_argument("--runs", type=int, default=2)
    takes.add_argument("--corrections", type=int, default=20)
    takes.add_argument("--work", default=work_folder())
    said = takes.parse_args()
    os.makedirs(said.work, exist_ok=True)
    native, well = baseline(said.work), True
    print(f"{said.runs} runs each, load {os.getloadavg()[0]:.1f} on {os.cpu_count()} cores")
    for size in map(int, said.sizes.split(",")):
        for shape in said.shapes.split(","):
            file = command_file(said.work, f"{shape}-{size}-60.csv", shape, size, "--depth", "60")
            book = Book(os.path.abspath(said.program), native, file, said)
            print(f"\n{shape}, {book.animals:,} animals")
            well &= book.compare()
    return 0 if well else 1


if __name__ == "__main__":
    sys.exit(main())
