"""What is wrong with a book, its file, its backup or its accounts."""
from __future__ import annotations

import enum

from gudokeyi.domain.messages import Message

# What is wrong with a book, its file or the program that answers for it.


@enum.unique
class BookFault(Message):
    """Nothing is changed then."""

    DAMAGED = (
        "{path} is damaged, or isn't a database ({error}): nothing is touched. Restore a backup, as {called} restore "
        "FILE --anyway"
    )
    NO_ROOM = "there is no room for {path} on its disk: nothing is changed"
    BUSY = "{path} is being changed by somebody else for {minutes} minutes: try again later"
    BUSY_NOW = (
        "somebody else is changing the book, and it wasn't free for {seconds} seconds: nothing is changed. Send it again "
        "in a moment"
    )
    CLOSED = "{path} can't be written ({error}): nothing is changed. Allow it, or use another folder"
    OTHER = "{path} can't be used ({error}): nothing is changed"
    OTHER_PROGRAM = "{path} is a database of another program, not a herd book: move it away, nothing is touched"
    NEWER = (
        "{path} was written by a newer front desk (its tables have version {version}, and this one knows {known}): use "
        "the newer one, nothing is touched"
    )
    UNSURE = (
        "{path} can't be written or read any more ({error}). Whether change {change} is in it can't be seen now: mend "
        "the disk, and ask by {called} history"
    )
    CANT_BE_READ = "{path} can't be read ({error}): who may read it has to allow it"
    ALWAYS_CHANGED = "{path} is changed all the time by somebody else: try again later"
    NO_BOOK = "there is no book in the folder {folder}: take a sheet first{there}{hint}"
    ONLY_SHEET = "  if {sheet} is the sheet:\n    {command}"
    FOLDER_IS_FILE = "the folder {folder} can't be written ({folder} is a file): nothing is changed"
    NO_FOLDER = "the folder {folder} isn't there: make it, or name another folder by --book"
    FOLDER_CLOSED = "the folder {folder} can't be written ({error}): nothing is changed"
    FILE_CLOSED = "{path} can't be written ({error}): nothing is changed"
    SHEET_IN_PLACE = (
        "{path} is where the book in the folder {folder} has a file of its own: give the sheet another name, or move it "
        "to another folder, and take it there"
    )
    FILE_IN_PLACE = (
        "{path} isn't of a book, and one in the folder {folder} would write over it: move it away, or name another "
        "folder by --book"
    )
    COEFFICIENTS_LACK = (
        "{path} keeps {kept} of {there}, so it isn't whole: restore a backup, as {called} restore FILE --anyway"
    )


@enum.unique
class NotWhole(Message):
    """What of a book doesn't fit together."""

    FAULT = "{path}: {fault}"
    WHAT_TO_DO = "the book isn't whole: nothing is changed. Restore a backup, as {called} restore FILE --anyway"
    SHOWN = (
        "the book isn't whole: what is shown may be wrong, and no certificate is printed. Restore a backup, as "
        "{called} restore FILE --anyway"
    )
    NOT_PRINTED = "the book isn't whole: nothing is printed. Restore a backup, as {called} restore FILE --anyway"
    FILE = "the file is damaged ({text})"
    LENGTH = "the journal has {there}, and its last change tells of {length}"
    REPLY = "the program's reply to command {place} is {reply}, the stored one {stored}"
    REFUSED = "'{refusal}' (refusal {number})"
    ACCEPTED = "that it is accepted"
    ANCESTOR = "the program's certificate names {number} as an ancestor, and the book doesn't"
    STATE = "the journal has {animals} otherwise, the first is {first}"
    ORDER = "the kept coefficients aren't in the program's order"
    COEFFICIENTS = "the program has {coefficients} otherwise, the first is {first}'s"


# Why a backup can't be restored.


@enum.unique
class BackupFault(Message):
    NO_BOOK = "{path} has no book: name a backup, as the word backup writes them"
    NOT_READ = "{path} can't be read: {error}. Is the name right?"
    DAMAGED = "{path} is damaged, or isn't a backup ({error}): nothing is changed"
    ACTS = "{path} has triggers or views, which no backup has: somebody else made them, and nothing is changed"
    OTHER_TABLES = "{path} has other tables than a herd book: somebody else made them, and nothing is changed"
    NO_TIME = (
        "{path} tells of change {change} at a time that can't be: somebody else made it, or a clock is wrong, and nothing "
        "is changed"
    )
    ODD_NAMES = "{path} has names that no herd book has: somebody else made them, and nothing is changed"
    NO_ROOM = (
        "no copy can be made in {folder}, the folder for temporary files ({error}): make room there, or name another "
        "one by TMPDIR"
    )
    NOT_RESTORED = "{path} can't be restored ({error}): nothing is changed"


# What is wrong with accounts and passwords.


@enum.unique
class AccountFault(Message):
    NONE_THERE = "there are no accounts here: name their folder by --book"
    NAME_IS_TAKEN = "there is an account {name} already: change that one"
    NO_ACCOUNT = "there is no account '{name}': name one of those that --list shows"
    CHANGED_MEANWHILE = "a keeper changed or removed this account meanwhile: log in again"
    NO_KEEPER = "somebody has to be a keeper: make another account one before"
    NO_NAME = "'{name}' can't be an account's name: begin with a letter, and take at most {most}"
    FIRST_IS_KEEPER = "the first account is a keeper's: say --role keeper"
    NO_ROLE = "the role is missing: choose one"
    CANT_BE_USED = "the accounts can't be read or written ({error})"
    BUSY = "somebody else is changing the accounts: nothing is changed. Send it again in a moment"
    CLOSED = "{path} can't be written ({error}): nothing is changed"
    READ_BY_OTHERS = "{path} may be read by others: as its owner say chmod 600 {path}, and give new passwords"
    NO_ACCOUNTS = "{path} isn't a file of accounts: move it away, nothing is touched"
    # passwords
    NOT_THE_SAME = "the two passwords aren't the same: write them again"
    LENGTH = "a password has {least} to {most} letters: take some words that you remember"
    OWN_WRONG = "your own password is wrong: nothing is changed"
    WAIT = "there were too many wrong passwords: wait {seconds} seconds, then try again"
    NOT_NEW = "the new password is the one that a keeper gave you: take another one"
    GUESSED = "the password is guessed too easily: take some words that you remember"
