"""What is found of a sheet's rows and cells: each kind as data, and in words."""
from __future__ import annotations

from collections.abc import Hashable, Mapping
from dataclasses import dataclass

from gudokeyi.domain.findings import Finding, LeftOut, Part, Severity, Suggestion, What, is_animal, is_no_animal
from gudokeyi.domain.kinds import Field
from gudokeyi.domain.wording import OptionalPart, Text, Told, WithText
from gudokeyi.ingest.days import DayFault

# What is found of a sheet's rows and cells: each kind as data, and in words.

# what the columns of days have, in words
DAYS = {Field.BIRTH: "birth day", Field.SINCE: "first day with its owner", Field.EXIT: "exit"}


class RowLeftOut(LeftOut):
    part = Part.ROW
    severity = Severity.ANIMALS


@dataclass(frozen=True, slots=True)
class TooManyCells(RowLeftOut):
    cells: int
    titles: int

    code = "too many cells"
    message = Text(
        "the row is left out: it has {cells} cells, and there are {titles} titles: is there one separator too many?"
    )


# stands between the cells of a row that are told as one text
BETWEEN_CELLS = " | "


@dataclass(frozen=True, slots=True)
class NoId(RowLeftOut):
    """The id is empty, or a word for an unknown animal; `text` is what the row says besides."""

    word: str
    text: str = ""

    code = "no id"
    message = Text("the row is left out: {maybe_empty}{maybe_says}{maybe_word}")
    parts = {
        "maybe_empty": OptionalPart("it has no id", when="is_empty"),
        "maybe_says": OptionalPart("; it says '{text}'"),
        "maybe_word": OptionalPart("'{word}' is a word for an unknown animal: give it another id"),
    }

    def values(self) -> Mapping[str, object]:
        return {"is_empty": not self.word}


@dataclass(frozen=True, slots=True)
class IdTooLong(RowLeftOut):
    letters: int
    most: int

    code = "id too long"
    message = Text(
        "the row is left out: its id has {letters:,} letters, and {most} are kept at most: shorten it"
    )


@dataclass(frozen=True, slots=True)
class UnseenInId(RowLeftOut):
    """The id has a sign that no one sees; `seen` is what one sees of it."""

    seen: str

    code = "unseen in id"
    message = Text("the row is left out: its id '{seen}' has an invisible character in it: type it again")


@dataclass(frozen=True, slots=True)
class TitleFor(Told):
    """A title of a later row, and the one of the first titles for which it stands."""

    title: str
    other: str

    message = Text("'{title}' as '{other}'")


@dataclass(frozen=True, slots=True)
class TitlesAgain(RowLeftOut):
    """The row has the titles, as a page's first one; where they stand in another order, the rows below are read by
    it, and some may stand for others."""

    is_in_other_order: bool | None = None
    for_others: tuple[TitleFor, ...] = ()

    code = "titles again"
    message = Text("the row is left out: it repeats the titles{maybe_in_other_order}{maybe_for_others}")
    parts = {
        "maybe_in_other_order": OptionalPart(
            " in another order, by which the rows below it are read", when="is_in_other_order"
        ),
        "maybe_for_others": OptionalPart(", {for_others}"),
    }


@dataclass(frozen=True, slots=True)
class NoAnimal(RowLeftOut):
    """The row is no animal, as somebody says by a word of it."""

    word: str

    severity = Severity.NONE
    code = "no animal"
    message = Text("the row is left out: a row with '{word}' is no animal, as --no-animal says")
    page_message = Text("the row is left out: rows with '{word}' are no animals, as somebody said")

    def suggestions(self) -> tuple[Suggestion, ...]:
        return (Suggestion("if it is one", (is_animal(self.word),)),)


@dataclass(frozen=True, slots=True)
class AnimalAfterAll(Finding):
    """A row has the id of one that somebody said is no animal, at an earlier time and of a row with another text."""

    word: str
    text: str

    what = What.WARNING
    severity = Severity.ANIMALS
    code = "animal after all"
    message = Text(
        "the row is taken as an animal: that '{word}' is none was said of another row, '{text}', and holds no more"
    )

    def suggestions(self) -> tuple[Suggestion, ...]:
        return (Suggestion("if it is none either", (is_no_animal(self.word),)),)


class OddRow(Finding):
    """A row that may be no animal is taken as one. `word` is what it is known by."""

    what = What.WARNING
    severity = Severity.ANIMALS


@dataclass(frozen=True, slots=True)
class LikeASum(OddRow):
    """A row that seems to count or to sum up."""

    word: str = ""

    code = "like a sum"
    message = Text("is this row an animal? It is taken as one")
    page_message = Text("this row looks like a total{maybe_word} and not like an animal")
    parts = {
        "maybe_word": OptionalPart(" ('{word}')"),
    }

    def suggestions(self) -> tuple[Suggestion, ...]:
        return (Suggestion("if it is none", (is_no_animal(self.word),)),) if self.word else ()


@dataclass(frozen=True, slots=True)
class IdAlone(OddRow):
    """A row that says nothing of an animal but its id, and of which no animal has that as a parent."""

    word: str = ""

    code = "id alone"
    message = Text(
        "is this row an animal? It has an id alone, and no animal has it as a parent. It is taken as one"
    )

    def suggestions(self) -> tuple[Suggestion, ...]:
        return (Suggestion("if it is none", (is_no_animal(self.word),)),) if self.word else ()


@dataclass(frozen=True, slots=True)
class IdUnlikeOthers(OddRow):
    """A row whose id is written unlike nearly all others, as `usual`: it may be no animal, or two."""

    word: str = ""
    usual: str = ""

    code = "id unlike others"
    message = Text(
        "is this row one animal? Its id is written unlike nearly all others, such as {usual}. It is taken as one"
    )

    def suggestions(self) -> tuple[Suggestion, ...]:
        return (Suggestion("if it is none", (is_no_animal(self.word),)),)


class OddId(Finding):
    """An id that is taken as it stands, and may be written wrongly."""

    what = What.WARNING
    severity = Severity.ANIMALS


@dataclass(frozen=True, slots=True)
class IdWithFewerDigits(OddId):
    """An id whose number may have lost its zeros."""

    usual: str

    code = "id with fewer digits"
    message = Text("its id has fewer digits than nearly all others, such as {usual}: did a spreadsheet drop its zeros?")


@dataclass(frozen=True, slots=True)
class IdOfOtherAlphabet(OddId):
    """An id with letters that look like those of the others, and are none of them."""

    usual: str

    code = "id of another alphabet"
    message = Text(
        "its id has a letter of another alphabet that looks like one of nearly all others, such as {usual}: type it "
        "again"
    )


@dataclass(frozen=True, slots=True)
class IdToCome(OddId):
    """An id that says of an animal that it has none yet."""

    text: str

    code = "id to come"
    message = Text(
        "'{text}' doesn't read like an id, but as if the animal had none yet, and is taken as its id: give it a "
        "provisional one of its own, or the next such animal counts as this one"
    )

    def suggestions(self) -> tuple[Suggestion, ...]:
        return (Suggestion("if it is no animal", (is_no_animal(self.text),)),)


@dataclass(frozen=True, slots=True)
class DittoForText(Finding):
    """A name or an id that is a mark for the cell above, which no other animal's name or id is."""

    field: Field
    text: str

    what = What.WARNING
    severity = Severity.ANIMALS
    code = "ditto for text"
    message = Text(
        "its {field} is '{text}', which in other columns stands for the cell above, and is taken as it is written: "
        "each animal has its own, so write that"
    )

    def suggestions(self) -> tuple[Suggestion, ...]:
        return (Suggestion("if it is no animal", (is_no_animal(self.text),)),) if self.field is Field.ID else ()


@dataclass(frozen=True, slots=True)
class DayForText(Finding):
    """A name or an id that is a day of a spreadsheet."""

    field: Field
    text: str

    what = What.WARNING
    severity = Severity.ANIMALS
    code = "day for text"
    message = Text(
        "its {field} is the day {text}, which spreadsheets make of texts such as 3/12: if something else is meant, "
        "write that as text"
    )


@dataclass(frozen=True, slots=True)
class TruthValue(Finding):
    """A name as a spreadsheet shows a truth value."""

    field: Field
    text: str

    what = What.WARNING
    severity = Severity.FACTS
    code = "truth value"
    message = Text(
        "its {field} is {text}, which spreadsheets make of some words: if something else is meant, write that as text"
    )


class CellLeftOut(LeftOut):
    part = Part.CELL

    def summed_up_as(self) -> Field | None:
        """The field whose cells that can't be read a finding of the sheet as a whole sums up."""
        return None


@dataclass(frozen=True, slots=True)
class SexUnread(CellLeftOut):
    text: str

    code = "sex unread"
    message = Text("its sex is left out: '{text}' isn't known: write M or F, or name it by --sexes")
    page_message = Text("its sex is left out: '{text}' isn't known: write M or F")

    def summed_up_as(self) -> Field:
        return Field.SEX


@dataclass(frozen=True, slots=True)
class DayLeftOut(CellLeftOut):
    """A day that can't be read, or can't be. An animal may be gone all the same."""

    field: Field
    fault: DayFault
    text: str
    is_gone: bool = False

    code = "day left out"
    message = Text("its {day_of} is left out: {fault}{maybe_gone}")
    parts = {
        "maybe_gone": OptionalPart("; the animal counts as gone", when="is_gone"),
    }

    def values(self) -> Mapping[str, object]:
        return {"day_of": DAYS.get(self.field, self.field), "fault": WithText(self.fault, self.text)}

    def theme(self) -> Hashable:
        return self.field, self.fault

    def summed_up_as(self) -> Field | None:
        """A text that can't be read is one of those of its column; a day that can't be isn't, nor is another's."""
        alone = (DayFault.AFTER_TODAY, DayFault.BEFORE_BIRTH, DayFault.YEAR, DayFault.OTHER_EVENT)
        return None if self.fault in alone else self.field


@dataclass(frozen=True, slots=True)
class EmbryoUnread(CellLeftOut):
    text: str

    code = "embryo unread"
    message = Text("its cell for a stored embryo is left out: '{text}' isn't known: write 1 or nothing")

    def summed_up_as(self) -> Field:
        return Field.EMBRYO


@dataclass(frozen=True, slots=True)
class TextTooLong(CellLeftOut):
    """A name, an owner or a parent with more letters than are kept."""

    field: Field
    letters: int
    most: int

    code = "text too long"
    message = Text(
        "its {field} is left out: it has {letters:,} letters, and {most} are kept at most: shorten it"
    )

    def theme(self) -> Hashable:
        return self.field


@dataclass(frozen=True, slots=True)
class ErrorValue(CellLeftOut):
    """A cell that shows a spreadsheet's error."""

    title: str
    text: str

    code = "error value"
    message = Text("its cell '{title}' is left out: '{text}' is an error of the spreadsheet, and no value")


@dataclass(frozen=True, slots=True)
class NarrowValue(ErrorValue):
    """A cell whose column was too narrow for it."""

    code = "narrow value"
    message = Text("its cell '{title}' is left out: '{text}' stands for a value for which the column was too narrow")
