"""The word `file`, by which another program files commands."""
from __future__ import annotations

import argparse
import pathlib
import sys

from gudokeyi.cli.parser import CommandWords
from gudokeyi.cli.statuses import Status
from gudokeyi.domain.batches import Answer, Faulty
from gudokeyi.domain.encoding import json_text
from gudokeyi.domain.mistakes import WrongWords

ABOUT = """Each line is a JSON object, or a line of CSV below titles, with `request`, a name of the caller's for it,
`kind` and the fields of that: birth (id, sex, day; name, sire, dam, owner, embryo), litter (offspring, day; sire, dam,
owner), parents (id; sire, dam), transfer (id, day, to; from), exit (id, day), correction (id; new_id, name, sex,
castrated, born, sire, dam, embryo, owners, exit, reason), note (id, text; day). Animals are named by ids. Each is
answered by a line of JSON: accepted, refused by the register or faulty. A request that was filed before is answered as
then, and files nothing.
ids.csv, report.csv and commands.csv are written by the next other word."""
NOTE = "The status is 1 where a line is faulty, else 3 where one is refused; all others are filed."


def add_words(words: CommandWords) -> None:
    one = words.add("file", do_file, "file the commands of another program", f"{ABOUT} {NOTE}")
    one.add_argument("commands", type=pathlib.Path, metavar="COMMANDS", help="the file; - is standard input")
    one.add_argument("--each", action="store_true", help="each line as a change of its own [all as one]")


def do_file(asked: argparse.Namespace) -> None:
    from gudokeyi.services.batches import file_lines
    from gudokeyi.services.filing_session import session_to_file

    if str(asked.commands) == "-":
        text = sys.stdin.buffer.read()
    elif asked.commands.is_file():
        text = asked.commands.read_bytes()
    else:
        raise WrongWords(f"there is no file {asked.commands}: name the file with the commands, or - for standard input")
    with session_to_file(asked.book) as program:
        for answer in file_lines(asked.book, program, text, asked.each):
            sys.stdout.write(f"{json_text(answer)}\n")
            asked.status = max(asked.status, status_of(answer), key=ORDER.index)


# the least grave first
ORDER = [Status.DONE, Status.REFUSED, Status.NOT_DONE]


def status_of(answer: Answer) -> Status:
    if isinstance(answer, Faulty):
        return Status.NOT_DONE
    return Status.DONE if answer.answer == "accepted" else Status.REFUSED
