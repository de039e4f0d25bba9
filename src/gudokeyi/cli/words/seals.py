"""The words `seal`, `sealed` and `check`: a book's seal, certificates under it, and their check."""
from __future__ import annotations

import argparse
import pathlib
import sys
from collections.abc import Sequence

from gudokeyi.cli.arguments import add_force, file
from gudokeyi.cli.output import tell
from gudokeyi.cli.parser import CommandWords
from gudokeyi.cli.statuses import Status
from gudokeyi.domain.seals import CertificateRefused, PublishedSeal, PublishedSeals, Seal
from gudokeyi.services.book_program import BookProgram
from gudokeyi.services.opening import Book
from gudokeyi.services.output_files import write_outs
from gudokeyi.services.search import find

# what is told behind the program's lines
CHECKED = (
    "checked: the book with this seal has these records of the animal and all its known ancestors, and this "
    "coefficient, unless somebody has two texts with the same SHA-256"
)
NOT_CHECKED = (
    "not checked: who the society is and whether the seal is its own (take the seal from where the society published "
    "it), whether the animal before you is this one (the file has neither tags nor names), what happened since the day "
    "of the seal, and whether the society wrote the truth"
)


def add_words(words: CommandWords) -> None:
    seal = words.add_for_book(
        "seal", do_seal, "write the book's seal, 64 digits, with its commands and animals", "Whoever has it can check "
        "certificates of `sealed`.", answers=seal_answered,
    )  # fmt: skip
    what = seal.add_mutually_exclusive_group()
    what.add_argument(
        "--publish", action="store_true",
        help="keep it with the book as published today, and write DAY,EDITION,STEPS,ANIMALS,SEAL for others",
    )  # fmt: skip
    what.add_argument("--published", action="store_true", help="write the lines of all seals that were published")
    sealed = words.add_for_book(
        "sealed", do_sealed, "write a certificate that anyone can check who has the published seal",
        "It is under the seal that was published last, or where none was under that of now.", shows=False,
    )  # fmt: skip
    sealed.add_argument("id", metavar="ANIMAL", help="the animal, by id, name or number")
    sealed.add_argument("--now", action="store_true", help="under the seal of the book as it is now")
    sealed.add_argument("--out", type=file, metavar="FILE", help="write to this file, not to the screen")
    add_force(sealed)
    check = words.add_without_book(
        "check", do_check, "check a certificate of `sealed` under a seal, without a book",
        "The program's answer is written, with the records that are to be believed. The status is 3 where it refuses it.",
    )  # fmt: skip
    check.add_argument("file", type=file, metavar="FILE", help="the certificate's file")
    check.add_argument("--seal", required=True, metavar="SEAL", help="the seal that the society published")


def seal_answered(
    asked: argparse.Namespace, book: Book, program: BookProgram
) -> Seal | PublishedSeal | PublishedSeals:
    from gudokeyi.services.seal_publishing import publish_seal
    from gudokeyi.services.seals import published_seals, seal_of

    if asked.published:
        return PublishedSeals(tuple(published_seals(book)))
    return publish_seal(asked.book, program) if asked.publish else seal_of(book, program)


def do_seal(asked: argparse.Namespace, book: Book, program: BookProgram) -> None:
    found = seal_answered(asked, book, program)
    some: Sequence[Seal | PublishedSeal] = found.seals if isinstance(found, PublishedSeals) else [found]
    for one in some:
        print(one.line())


def do_sealed(asked: argparse.Namespace, book: Book, program: BookProgram) -> None:
    from gudokeyi.services.seals import sealed_certificate

    animal = find(book, asked.id)
    made = sealed_certificate(book, program, animal, asked.now)
    if not asked.out:
        sys.stdout.write(made.text)
        return
    write_outs(book, {asked.out: made.text.encode()}, asked.force)
    day = f"published on {made.published}" if made.published else "which isn't published"
    print(f"{asked.out} is the certificate of {animal.id} under the seal {made.seal.digits}, {day}")


def do_check(asked: argparse.Namespace) -> None:
    from gudokeyi.services.seals import check_certificate

    try:
        checked = check_certificate(asked.file, asked.seal)
    except CertificateRefused as refused:
        asked.status = Status.REFUSED
        print(f"refused,{refused.fault.code},{refused.line}")
        for sentence in refused.sentences:
            tell(sentence)
        return
    sys.stdout.write(checked.text)
    tell(CHECKED)
    tell(NOT_CHECKED)
