"""Why a sheet or a pedigree isn't taken, where that is no finding."""
from __future__ import annotations

import enum

from gudokeyi.domain.messages import Message


@enum.unique
class ImportFault(Message):
    OWNER_OPTION = "--owner {word}: write OLD=NEW, as --owner 'Meier=Meyer'"
    OWNER_LACKS = "--owner {word}: the book has no owner '{before}': its owners are {owners}"
    NO_OWNERS = "--owner {word}: no animal of the book has an owner yet"
    OWNER_IS_THERE = (
        "--owner {word}: the book has '{name}' too, as another owner: undo the import that brought it, and then say "
        "this again"
    )
    NEW_TAG_OPTION = "--new-tag {word}: write OLD=NEW, as --new-tag 012=345"
    NEW_TAG_LACKS = "--new-tag {word}: the book has no animal with the id {before}"
    NEW_TAG_IS_THERE = "--new-tag {word}: the book has another animal with the id {now}"
    REFUSED_ON = "{where}{command} on {day} is refused: {refusal} (refusal {number})"
    REFUSED = "{where}{command} is refused: {refusal} (refusal {number})"
    NOTHING_TAKEN = "nothing is taken (refused: {count}): correct these rows, and take the sheet again"
    PARENT_REFUSED = "{where}{refusal} (refusal {number})"
    SHEET_TOO_LARGE = (
        "the sheet and the book have {animals:,} animals together, and a book holds at most {most:,}: leave out "
        "animals that aren't ancestors of any other, and take the rest with --drop-gone. To leave out ancestors, such "
        "as the oldest animals, changes coefficients"
    )
    PEDIGREE_TOO_LARGE = (
        "the pedigree and the book have {animals:,} animals together, and a book holds at most {most:,}: name those "
        "that you need in a file, one id a line, and take them with their ancestors by --keep FILE: their coefficients "
        "stay as they are"
    )
    TOO_DEEP = "{where}a path of parents would be longer than {most} steps, which is the limit (refusal 10)"
    LONGEST_PATH = (
        "the longest path has {steps} steps, {more} more than {most}, from {youngest} up to {oldest}; its oldest "
        "animal is {top}"
    )
    LONGEST_PATHS = (
        "the longest path has {steps} steps, {more} more than {most}, from {youngest} up to {oldest}; its oldest "
        "{more} animals are {top}"
    )
    TO_CUT = (
        "set the parents of this animal to unknown, and no path is too long: {cut}. That changes coefficients: an "
        "unknown parent counts as unrelated. To leave out rows of founders doesn't help: they are added again as "
        "parents"
    )
    TO_CUT_MANY = (
        "set the parents of these animals to unknown, and no path is too long: {cut}. That changes coefficients: an "
        "unknown parent counts as unrelated. To leave out rows of founders doesn't help: they are added again as "
        "parents"
    )
    KEEP_FEWER = (
        "where not all animals are needed, --keep FILE takes those that the file names, one id a line, with their "
        "ancestors: their coefficients stay as they are, and their paths may be short enough"
    )


@enum.unique
class CorrectionFault(Message):
    """Why an animal isn't corrected: what the register would refuse, with the animals, names and days that it is
    about."""

    BIRTH = "{animal}, born {day}: {refusal} (refusal {number})"
    PARENT = "{animal}, born {day}, with {parent}, born {parent_day}: {refusal} (refusal {number})"
    LEFT_PARENT = "{animal}, born {day}, with {parent}, which left on {parent_day}: {refusal} (refusal {number})"
    TRANSFER = "{animal}: the owner {owner} since {day}: {refusal} (refusal {number})"
    EXIT = "{animal}: the exit on {day}: {refusal} (refusal {number})"
    EXIT_OF_PARENT = "{animal}: the exit on {day}: {refusal} (refusal {number}): {offspring}, born {born}"
    NOT_CORRECTED = "nothing is changed: correct what stands against it first, or what was written here"
    # what isn't asked of the register
    AS_IT_IS = "the book has all of it already: nothing is changed"
    ID_TAKEN = "the book has another animal with the id {id}{called}: write another one"
    ID_DROPPED = "an animal that isn't in the book any more had the id {id}: write another one"
    NO_OWNER_DAY = "the day is missing since which {owner} has it: write one"
    OWNER_TWICE = "{owner} stands twice one after the other: leave out one of the two"
    DAY_WITHOUT_OWNER = "the day {day} stands without an owner: write who has it since then"
    NO_MALE_CASTRATED = "a female can't be castrated in the book: choose male, or leave castrated out"
    NO_EXIT_REASON = "a reason is written, and no exit: say that it left, or leave the reason out"


@enum.unique
class TakingBack(Message):
    """Why a change isn't taken back."""

    STOOD_ON = "later changes stand on change {number}: {later}: take these back too, or leave it"
    NOTHING = "change {number} changed nothing that the book has now: name another one, as the history shows them"
    REFUSED = "change {change} isn't taken back, for then {animal} would be refused: {refusal} (refusal {number})"


@enum.unique
class LitterFault(Message):
    """Why the births of a litter aren't filed."""

    NO_NEWBORN = "no newborn is written: choose the sex of each"
    TOO_MANY = "a litter has {most} newborns at most: file the others by another form"
    FIRST_TAG = "the first newborn that lives needs an id: write it"
    NO_TAG = "the id {tag} has no digits at its end that count on: write the id of each"
    TAG_TAKEN = "the book has an animal with the id {tag}: write another one"
    TAG_TWICE = "two newborns have the id {tag}: write another one"
    NO_SEX = "the sex of {newborn} is missing: choose male or female"
    REFUSED = "{animal}: {refusal} (refusal {number})"
