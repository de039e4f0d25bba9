"""What is wrong with what somebody asks of a book: the name of an animal or an owner, a value, a mating, or a form; and
how long texts may be."""
from __future__ import annotations

import enum
import re
import unicodedata

from gudokeyi.domain.kinds import Field
from gudokeyi.domain.messages import Message, MessageText
from gudokeyi.domain.mistakes import InvalidValue


@enum.unique
class Naming(Message):
    """A name that stands for no animal and no owner, or for several, and what may be meant."""

    NO_ANIMAL = "the book has no animal '{word}': {hint}"
    IS_FILE = "the book has no animal '{word}', which is a file: an option that names files is for that"
    SEVERAL = (
        "{count} animals have the name '{word}': name one by its id, as `find` shows them with their birth days: {ids}"
    )
    NO_OWNER = "the book has no owner '{name}': {hint}"
    # hints
    WITH_BLANKS = "put an id or a name with blanks between quotation marks"
    MANY_PARTS = "`find` shows those that have it in their ids or names"
    MEANT = "is {names} meant?"
    FIND = "`find` looks for a part of an id, a name or an owner"
    FIND_OWNERS = "`find` finds owners by a part of the name"
    AS_IN_BOOK = "write one as the book has it, or leave out --from"
    AS_IN_SHEET = "write the name as the sheet has it"


@enum.unique
class NotSuch(Message):
    """A value that can't be read."""

    LETTERS = "'{text}' isn't three letters A to Z"
    LETTERS_OF = "'{text}' isn't three letters A to Z, as the {setting} in numbers has to be"
    LANGUAGE = "'{text}' isn't one of the languages {languages}"
    DAY = "'{text}' isn't a day written as 2001-03-01 or 01.03.2001"
    DAY_OR_PERIOD = (
        "'{text}' is no day: write it as 2001-03-01 or 01.03.2001, or a month or year alone as 03.2001 or 2001"
    )
    DAYS = "'{text}' isn't a number of days"
    SEX = "'{text}' is no word for a sex: write m or f"
    SPAN = "'{text}' isn't written as 2010..2019, 2010.. or 2010-03-01..2010-08-31"
    COEFFICIENT = "'{text}' isn't a fraction or a decimal from 0 to 1, as 1/16, 0.0625 or 6.25%"
    POSITIVE = "'{text}' isn't a whole number from 1 on"
    YEAR = "'{text}' isn't a year from {first} to {last}"
    WORDS = "a search has {most} words at most, and this one has {count:,}: write fewer"
    LONG_ID = "an id has {most} letters at most, and this one has {letters:,}: write a shorter one"
    LONG_NAME = "a name has {most} letters at most, and this one has {letters:,}: write a shorter one"
    LONG_SETTING = "a setting has {most} letters at most, and this one has {letters:,}: write a shorter one"
    LONG_OWNER = "an owner's name has {most} letters at most, and this one has {letters:,}: write a shorter one"
    UNSEEN = "'{text}' has an invisible character in it: type it instead of copying it"
    # a birth
    NO_ID = "an animal needs an id: write one"
    NO_ANIMALS_ID = "'{word}' is a word for an unknown parent: give the animal another id"
    # a command
    NO_TAKER = "the new owner is missing: write a name"
    AFTER_TODAY = "the day {day} is after today: write one that has come"
    BEFORE_FIRST = "the day {day} is too long ago: a book takes days from {first} to today"


@enum.unique
class Mating(Message):
    """Why there is nobody to mate, or no advice."""

    NO_CANDIDATE = "the book has no living {sex} that may be a {role}{among}: {hint}"
    AMONG = " (passed over: {passed})"
    LEFT = "{count} left"
    CASTRATED = "{castrated}"
    WITHOUT_ROW = "{count} without a row"
    WRONG_SEX = "{animals}: no {role} can be {sex}: take these out of --{role}s"
    TOO_MANY_PAIRS = "these are {pairs:,} pairs, and at most {most:,} are written: name fewer animals in files"
    NOT_A_DAM = "{dam}: {refusal} (fault {number}): name a female as the dam"
    REFUSED = "{sire}: refused: {refusal} (fault {number})"
    # hints
    NAME_ONE = "name one"
    NAME_ONE_OR_LEFT = "name one, or ask for those that left too by --left"
    NAME_IN_FILE = "name some in a file, as --{role}s FILE"
    NONE_SO_OLD = "none is so old: ask for fewer days by --minimum-age, or for all by --minimum-age 0"
    # what a plan assumes
    ASSUMED_AGE = (
        "assumed: parents are {days:,} days old at least, as nineteen of twenty of the book's {parents:,} were at "
        "their first offspring (left out: {count}); --minimum-age says otherwise"
    )
    ASSUMED_YEAR = (
        "assumed: parents are {days:,} days old at least (left out: {count}); --minimum-age says otherwise"
    )
    ASSUMED_MOST = (
        "assumed: no sire has more than {most:,} dams, twice as many as if all had the same; --most-for-a-sire says "
        "otherwise"
    )
    ASK_FOR_LEFT = "ask for those that left too"
    NAME_OTHERS = "name others"


# how long the texts are that are filed, in letters: one rule for forms, words and sheets
MOST_IN_ID, MOST_IN_NAME, MOST_IN_OWNER = 60, 120, 200
BOUNDS = {
    Field.ID: (MOST_IN_ID, NotSuch.LONG_ID), Field.NAME: (MOST_IN_NAME, NotSuch.LONG_NAME),
    Field.OWNER: (MOST_IN_OWNER, NotSuch.LONG_OWNER),
}  # fmt: skip
# control characters, marks that turn the order of letters round, and halves of characters
UNSEEN = ("Cc", "Cf", "Cs")


def seen_of(text: str) -> str:
    """The text without signs that no one sees, as of a key or one that turns the order of letters round."""
    # none of them is printed, and most texts have none
    if text.isprintable():
        return text
    return "".join(one for one in text if unicodedata.category(one) not in UNSEEN)


# what stands in no text that is kept, of whatever kind: all that controls something but lines and tabs
CONTROL = re.compile(r"[\x00-\x08\x0b-\x1f\x7f-\x9f\u2028\u2029]")
# so much of a long text is told
MOST_TOLD = 60


def unseen_in(text: str) -> MessageText | None:
    """What is told of a note, or another free text, that has such a sign."""
    if not CONTROL.search(text):
        return None
    seen = CONTROL.sub("", text)
    return NotSuch.UNSEEN.said(text=seen if len(seen) <= MOST_TOLD else f"{seen[:MOST_TOLD]}…")


def refuse_unseen(*texts: str) -> None:
    """A mistake where a free text has such a sign."""
    for text in texts:
        told = unseen_in(text)
        if told:
            raise InvalidValue(told)


def refuse_text(field: Field, text: str) -> None:
    """A mistake where an id, a name or an owner is longer than it may be, or has a sign that no one sees."""
    seen = seen_of(text)
    if seen != text:
        raise InvalidValue(NotSuch.UNSEEN.said(text=seen))
    most, sentence = BOUNDS[field]
    if len(text) > most:
        raise InvalidValue(sentence.said(letters=len(text), most=most))


@enum.unique
class OwnFault(Message):
    """What can't be meant of a note, of the society's own columns, or of an owner."""

    NO_NOTE = "the note is empty: write one"
    LONG_NOTE = "a note has {most} letters at most, and this one has {count:,}: write two"
    AS_IT_IS = "the book has it so already: write something else"
    NO_TITLE = "the title is missing: write one"
    LONG_TITLE = "a title has {most} letters at most, and this one has {count:,}: write a shorter one"
    TITLE_TAKEN = "there is a column '{title}' already: write another title"
    MANY_COLUMNS = "a society has {most} columns of its own at most: let one go"
    NO_CHOICES = "a column of choices needs these: write one a line"
    LONG_VALUE = "{title}: a value has {most} letters at most, and this one has {count:,}: write a shorter one"
    NO_NUMBER = "{title}: '{text}' isn't a number: write one as 12 or 12.5"
    NO_DAY = "{title}: '{text}' isn't a day written as 2001-03-01 or 01.03.2001"
    NO_YES_OR_NO = "{title}: '{text}' is neither yes nor no"
    NO_CHOICE = "{title}: '{text}' isn't one of {choices}"
    MANY_CHOICES = "the column '{title}' has more than {most} different values: keep it as a text"
    OWN_OPTION = "'{word}' isn't a column's title with = and one of text, number, day, yes-no, choice or none behind it"
    NO_OTHER_COLUMN = "the sheet has no other column '{title}'; it has {titles}"
    CHANGED_MEANWHILE = "{title}: somebody else wrote '{now}' meanwhile: look at it, and send it again"
    NO_OWNER_NAME = "the owner's name is missing: write one"
    OWNER_TAKEN = "there is an owner '{name}' already: make one of the two, if they are the same"
    LONG_MEMBER = "what is kept of an owner has {most} letters at most, and this one has {count:,}: write less"
    SAME_OWNER = "this is the same owner: choose another one"
    NO_SUCH_OWNER = "the book has no owner '{name}': choose one of its owners"
    NOT_MERGED = "the register refuses it, and nothing is changed: correct the owners' days of their animals first"
    OWNER_CHANGED = "somebody changed this owner meanwhile: look at the record, and send it again"
    NOTE_CHANGED = "somebody changed this note meanwhile: look at it, and send it again"


@enum.unique
class WebFault(Message):
    # forms
    NO_DAY = "the day is missing, or isn't written as 2001-03-01"
    NO_ANIMAL = "the animal is missing: write its id, name or number"
    NO_SEX = "the sex is missing: choose male or female"
    ANIMAL_CHANGED = "somebody changed {id} meanwhile: look at what is marked, and send it again"
    DAY_WITHOUT_EXIT = "the day {day} of an exit is written, and no exit: choose why it left, or leave the day out"
    PARENTS_CHANGED = "somebody gave {id} other parents meanwhile: look at them, and file it again"
    NONE_SHOWN = "these are the parents that {id} has: correct what is wrong, and file it"
    OTHER_SHOWN = "the form showed the parents of {shown}: look at those of {id}, and file it again"
    NONE_OF_THESE = "the book has none of these animals: ask for others"
    CLOSING = "the desk is being closed: nothing is filed. Try again when it is open"
    PLAN_DIFFERS = "the plan and the register say something else of {dam} and {sire}: the plan isn't shown"
    # files and processes
    NOT_KEPT = "the file can't be kept here ({error}): make room on the disk"
    WORK_ENDED = "the work was ended before it was done: try it again"
    WORK_STOPPED = "it was stopped, and nothing is changed"
    TOOK_LONG = "it took longer than {minutes} minutes, and was ended: nothing is changed. Ask for less at a time"
    MUCH_WORK = "you have asked for much that isn't done yet: wait for it, or stop it"
    NO_MEMORY = "there isn't enough memory for it"
    NO_FILE = "a file can't be read or written: {error}"
    NO_PROCESS = "no process can be started ({error}): try again later"
    NO_PORT = "port {port} can't be used ({told}): {otherwise}"
    # the folder of a desk that the menu opens
    FOLDER_GONE = "the folder {folder} isn't there: connect the drive that has it, or name another one"
    FOLDER_MISSING = "the folder is missing: write where the book shall be"
    FOLDER_IS_FILE = "{folder} is no folder: name another one"
    FOLDER_NOT_MADE = "the folder {folder} can't be used ({error}): name another one"
