"""The words about the book as a whole: `history`, `undo`, `settings`, `verify`, `backup` and `restore`."""
from __future__ import annotations

import argparse
import pathlib
import sys

from gudokeyi.cli.arguments import add_force, file, whole_number
from gudokeyi.cli.output import tell
from gudokeyi.cli.parser import CommandWords
from gudokeyi.cli.statuses import Status
from gudokeyi.domain.changes import Change
from gudokeyi.domain.messages import Mistake, counted
from gudokeyi.domain.mistakes import BookBusy, BookNotWhole
from gudokeyi.domain.settings import Setting
from gudokeyi.packages import Group, need
from gudokeyi.render.history import details, heading
from gudokeyi.services.book_program import BookProgram
from gudokeyi.services.history import change_numbered, changes_of, last_changes, last_that_changed
from gudokeyi.services.opening import Book, export, opened, there_to_change
from gudokeyi.services.restoring import backup, restore
from gudokeyi.services.settings import (
    MOST_PICTURE_BYTES, Picture, change_picture, change_settings, picture_of, picture_read, settings_of,
)  # fmt: skip
from gudokeyi.services.taking_back import StoodOn, take_back
from gudokeyi.services.undoing import undo
from gudokeyi.services.verification import verify

# so many changes are told that an earlier state doesn't have
MOST_TOLD = 20
# what each setting is
SETTINGS = {
    Setting.NAME: "the society's name",
    Setting.ADDRESS: "its address",
    Setting.BREED_NAME: "what the breed is called on certificates",
    Setting.BREED: "the breed with which new numbers begin, three letters",
    Setting.COUNTRY: "the country in new numbers, three letters",
    Setting.UNKNOWN: "words for an unknown parent, as import --unknown names them",
    Setting.LANGUAGE: "the language of the desk in a browser, en, de or fr",
}


def add_words(words: CommandWords) -> None:
    add_history(words)
    add_undo(words)
    add_settings(words)
    add_verify(words)
    add_backup(words)
    add_restore(words)


def add_history(words: CommandWords) -> None:
    word = words.add_for_book("history", do_history, "write what was changed, when and by whom", answers=told)
    word.add_argument(
        "number", nargs="?", type=whole_number, metavar="N", help="what this change did, animal by animal [all changes]"
    )


def add_undo(words: CommandWords) -> None:
    word = words.add(
        "undo",
        do_undo,
        "bring back the state before the last change that changed something, as a new change",
        "Nothing is lost by it.",
    )
    which = word.add_mutually_exclusive_group()
    which.add_argument("--to", type=whole_number, metavar="N", help="the state after this change, 0 for the empty book")
    which.add_argument(
        "--change", type=whole_number, metavar="N", help="undo this change alone, where no later one stands on it"
    )
    word.add_argument("--with-later", action="store_true", help="with --change: undo those that stand on it too")


def add_settings(words: CommandWords) -> None:
    word = words.add(
        "settings",
        do_settings,
        "keep what the society says of itself, or write it",
        "Certificates show name, address, breed and picture.",
    )
    for setting in Setting:
        word.add_argument(
            f"--{setting}", dest=setting.value, metavar="TEXT", help=f"{SETTINGS[setting]}, '' for none [as it is]"
        )
    word.add_argument(
        "--picture", metavar="FILE", help="its picture, a PNG or JPEG of at most 1 MB, '' for none [as it is]"
    )


def add_verify(words: CommandWords) -> None:
    word = words.add_for_book(
        "verify",
        do_verify,
        "see whether the book is whole, and its replies and coefficients are the program's",
        shows=False,
        answers=seen,
    )
    word.add_argument(
        "--published", type=pathlib.Path, metavar="FILE",
        help="see too whether each line of a file of published seals is that of the journal",
    )  # fmt: skip


def add_backup(words: CommandWords) -> None:
    word = words.add_for_book(
        "backup", do_backup, "write the whole book with its history to a file, while others work", shows=False
    )
    word.add_argument("file", type=file, metavar="FILE", help="the file")
    add_force(word)


def add_restore(words: CommandWords) -> None:
    word = words.add("restore", do_restore, "make the book of a backup that of the folder")
    word.add_argument("file", type=pathlib.Path, metavar="FILE", help="the backup")
    word.add_argument(
        "--anyway", action="store_true", help="where there is a book too, which goes to the folder `old` of it"
    )


def do_history(asked: argparse.Namespace, book: Book, program: BookProgram) -> None:
    if asked.number is None:
        for change in changes_of(book):
            print(heading(change))
        return
    for line in details(book, change_asked(asked, book)):
        print(line)


def change_asked(asked: argparse.Namespace, book: Book) -> Change:
    found = change_numbered(book, asked.number)
    if not found:
        last = book.change.number if book.change else 0
        raise Mistake(f"the book has no change {asked.number}: its changes are 1 to {last}")
    return found


def told(asked: argparse.Namespace, book: Book, program: BookProgram) -> object:
    from gudokeyi.services.answers import History, change_shown

    if asked.number is None:
        return History(tuple(changes_of(book)))
    return change_shown(book, change_asked(asked, book))


def seen(asked: argparse.Namespace, book: Book, program: BookProgram) -> object:
    """Faults are written too, also of lines that were published."""
    from gudokeyi.services.answers import verified
    from gudokeyi.services.seal_publishing import verify_published

    try:
        verify(book, program)
        if asked.published:
            for note in verify_published(book, program, asked.published)[1]:
                tell(note)
    except BookNotWhole as mistake:
        asked.status = Status.NOT_DONE
        return verified(book, mistake.sentences)
    return verified(book)


def do_undo(asked: argparse.Namespace) -> None:
    program = BookProgram()
    seen = None if asked.to is None else asked_to_bring_back(asked, program)
    with there_to_change(asked.book, program) as book:
        if seen is not None and book.change != seen:
            raise BookBusy("somebody changed the book meanwhile, and nothing is brought back: say it again")
        if asked.change is None or asked.change == last_that_changed(book):
            change = undo(book, program, asked.to)
        else:
            change = taken_back(book, program, asked.change, asked.with_later)
        notes = export(book.folder)
    print(heading(change))
    for note in notes:
        tell(note)


def asked_to_bring_back(asked: argparse.Namespace, program: BookProgram) -> Change | None:
    """The last change of the book of which is told what goes where an earlier state is brought back. Who sits at a
    terminal is asked whether that is meant."""
    with opened(asked.book, program) as book:
        last = book.change
        count = last.number - asked.to if last else 0
        newest = last_changes(book, min(count, MOST_TOLD)) if count > 0 else []
    if last and newest:
        print(f"this takes back {counted(count, 'change')}, which `undo --to {last.number}` would bring back:")
    for change in newest:
        print(f"  {heading(change)}")
    if count > len(newest) > 0:
        print(f"  and {count - len(newest)} more")
    sys.stdout.flush()
    if newest and sys.stdin.isatty() and input("Bring it back? [y/N] ").strip().lower() not in ("y", "yes"):
        raise Mistake("nothing is changed")
    return last


def taken_back(book: Book, program: BookProgram, number: int, with_later: bool) -> Change:
    """A change that isn't the last is taken back alone, or with those that stand on it."""
    also: set[int] = set()
    while True:
        try:
            return take_back(book, program, number, also)
        except StoodOn as stood_on:
            if not with_later:
                raise Mistake(*stood_on.sentences, "say --with-later to take these back too") from None
            also |= {*stood_on.later}


def do_verify(asked: argparse.Namespace, book: Book, program: BookProgram) -> None:
    verify(book, program)
    changes = book.change.number if book.change else 0
    print(
        f"{book.path} is whole: {counted(changes, 'change')}, {counted(book.journal.length, 'command')}, "
        f"{counted(len(book.society_records), 'animal')}; the program's replies and coefficients are the stored ones"
    )
    if asked.published:
        verify_lines(asked, book, program)


def verify_lines(asked: argparse.Namespace, book: Book, program: BookProgram) -> None:
    from gudokeyi.services.seal_publishing import verify_published

    count, notes = verify_published(book, program, asked.published)
    print(f"{asked.published}: {counted(count, 'published seal')}, each that of the journal")
    for note in notes:
        tell(note)


def do_settings(asked: argparse.Namespace) -> None:
    program = BookProgram()
    given = {Setting(name): text for name, text in vars(asked).items() if name in list(Setting) and text is not None}
    with opened(asked.book, program):
        # a book is there, and of this version
        pass
    if asked.picture is not None:
        change_picture(asked.book, picture_in(asked.picture) if asked.picture else None)
    if given:
        change_settings(asked.book, given)
    with opened(asked.book, program) as book:
        for setting, text in settings_of(book).items():
            print(f"{setting}: {', '.join(text.splitlines()) or 'not said'}")
        picture = picture_of(book)
    print(f"picture: {f'{picture.width} by {picture.height} points' if picture else 'none'}")


def picture_in(name: str) -> Picture:
    """That of a file."""
    need(Group.PICTURES)
    try:
        with open(name, "rb") as file:
            return picture_read(file.read(MOST_PICTURE_BYTES + 1))
    except OSError as error:
        raise Mistake(f"{name} can't be read: {error.strerror}: is the name right?") from None


def do_backup(asked: argparse.Namespace, book: Book, program: BookProgram) -> None:
    backup(book, asked.file, asked.force)
    changes = book.change.number if book.change else 0
    print(f"{asked.file} has the book with its {counted(changes, 'change')}")


def do_restore(asked: argparse.Namespace) -> None:
    change = restore(asked.book, asked.file, BookProgram(), asked.anyway)
    notes = export(asked.book)
    print(heading(change))
    for note in notes:
        tell(note)
