"""Why the program refuses a command or a mating, in words."""
from __future__ import annotations

import enum


class Refusal(enum.IntEnum):
    """Why a command is refused."""

    NUMBER_IN_BOOK = 1
    BOOK_IS_FULL = 2
    SIRE_NOT_IN_BOOK = 3
    DAM_NOT_IN_BOOK = 4
    SIRE_NOT_MALE = 5
    DAM_NOT_FEMALE = 6
    SIRE_NOT_OLDER = 7
    DAM_NOT_OLDER = 8
    DAM_LEFT_BEFORE = 9
    PATH_TOO_LONG = 10
    NOT_IN_BOOK = 11
    LEFT_ALREADY = 12
    NOT_THE_OWNER = 13
    DAY_TOO_EARLY = 14
    SAME_OWNER = 15
    LATER_OFFSPRING = 16

    def words(self) -> str:
        return REFUSALS[self]


REFUSALS = {
    Refusal.NUMBER_IN_BOOK: "the number is in the book already",
    Refusal.BOOK_IS_FULL: "the book is full: it holds at most 60,000 animals",
    Refusal.SIRE_NOT_IN_BOOK: "its sire isn't in the book",
    Refusal.DAM_NOT_IN_BOOK: "its dam isn't in the book",
    Refusal.SIRE_NOT_MALE: "its sire isn't male",
    Refusal.DAM_NOT_FEMALE: "its dam isn't female",
    Refusal.SIRE_NOT_OLDER: "its sire isn't at least a day older",
    Refusal.DAM_NOT_OLDER: "its dam isn't at least a day older",
    Refusal.DAM_LEFT_BEFORE: "its dam left on a day before the birth",
    Refusal.PATH_TOO_LONG: "a path of parents would be longer than 60 steps",
    Refusal.NOT_IN_BOOK: "it isn't in the book",
    Refusal.LEFT_ALREADY: "it has left already",
    Refusal.NOT_THE_OWNER: "the giver isn't its owner",
    Refusal.DAY_TOO_EARLY: "the day is before its birth, or before its owner got it",
    Refusal.SAME_OWNER: "giver and taker are the same owner",
    Refusal.LATER_OFFSPRING: "it has offspring born after the day",
}


class MatingFault(enum.IntEnum):
    """Why a mating is refused."""

    SIRE_NOT_IN_BOOK = 1
    DAM_NOT_IN_BOOK = 2
    SIRE_NOT_MALE = 3
    DAM_NOT_FEMALE = 4
    PATH_TOO_LONG = 5

    def words(self) -> str:
        return MATING_FAULTS[self]

    def is_of_dam(self) -> bool:
        return self in (MatingFault.DAM_NOT_IN_BOOK, MatingFault.DAM_NOT_FEMALE)


MATING_FAULTS = {
    MatingFault.SIRE_NOT_IN_BOOK: "the sire isn't in the book",
    MatingFault.DAM_NOT_IN_BOOK: "the dam isn't in the book",
    MatingFault.SIRE_NOT_MALE: "the sire isn't male",
    MatingFault.DAM_NOT_FEMALE: "the dam isn't female",
    MatingFault.PATH_TOO_LONG: "offspring would have a path of parents longer than 60 steps",
}
