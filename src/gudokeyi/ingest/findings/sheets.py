"""What is found of the cells of a sheet as a whole: each kind as data, and in words."""
from __future__ import annotations

from collections.abc import Mapping
from dataclasses import dataclass

from gudokeyi.domain.changes import Option
from gudokeyi.domain.findings import Suggestion, tells_of_no_exit
from gudokeyi.domain.kinds import Field
from gudokeyi.domain.messages import Worded
from gudokeyi.domain.wording import Counted, OptionalPart, Quoted, Text, Told
from gudokeyi.ingest.findings.columns import SheetFinding, column

# so many texts are shown
MOST_SHOWN, MOST_TEXTS = 5, 9
MONTH_FIRST, DAY_FIRST = Option("--month-first"), Option("--day-first")


# -- days whose month may stand first


@dataclass(frozen=True, slots=True)
class Place(Told):
    """A cell with a day: its line, its animal, its field in words, and the day as it is written."""

    line: int
    id: str
    field: str
    text: str

    message = Text("line {line}: {id}: {field}: '{text}'")


@dataclass(frozen=True, slots=True)
class WrongOrder(SheetFinding):
    """Days have the month first, or, where that is wished, the day; `right` is one in the order that is wished."""

    month_first: bool
    wrong: Place
    count: int
    right: Place | None

    code = "wrong order"
    message = Text(
        "{wrong} has the {is_first} first{maybe_several}, so days with / can't be told from months{maybe_second}: "
        "write all days as 2001-03-01 or 01.03.2001"
    )
    parts = {
        "maybe_several": OptionalPart(" ({several} such days)"),
        "maybe_second": OptionalPart(": others have the {is_second} first ({right})"),
        "maybe_right_text": OptionalPart(" than '{right_text}' in line {right_line}"),
    }

    def values(self) -> Mapping[str, object]:
        is_first, is_second = ("day", "month") if self.month_first else ("month", "day")
        several = self.count if self.count > 1 else None
        return {"is_first": is_first, "is_second": is_second, "several": several}

    def suggestions(self) -> tuple[Suggestion, ...]:
        if self.right:
            return ()
        if self.month_first:
            return (Suggestion("if all days have the day first", (DAY_FIRST,), (MONTH_FIRST.option,)),)
        return (Suggestion("if all days have the month first", (MONTH_FIRST,)),)


@dataclass(frozen=True, slots=True)
class OneWrongOrder(SheetFinding):
    """One day has the month first, or, where that is wished, the day; `others` are in the order that is wished."""

    month_first: bool
    wrong: Place
    others: int
    right: Place

    code = "one wrong order"
    message = Text(
        "{wrong} has the {is_first} first, and {others} others have the {is_second} first, as {right}: write this day "
        "as 2001-03-01 or 01.03.2001, or all days where the others are wrong"
    )

    def values(self) -> Mapping[str, object]:
        is_first, is_second = ("day", "month") if self.month_first else ("month", "day")
        return {"is_first": is_first, "is_second": is_second}


@dataclass(frozen=True, slots=True)
class NoOrderShown(SheetFinding):
    """Days that could have the month first, and none of the sheet shows whether they do."""

    count: int

    decides_much = True
    code = "no order shown"
    message = Counted(
        "{count} day with / could have the month first, and no day in the sheet shows which: the day is read "
        "first",
        "{count} days with / could have the month first, and no day in the sheet shows which: the day is read "
        "first",
        "count",
    )

    def suggestions(self) -> tuple[Suggestion, ...]:
        return (Suggestion("if the month is first", (MONTH_FIRST,)),)


# -- cells that can't be read


@dataclass(frozen=True, slots=True)
class TextCount(Told):
    """A text, and how many cells have it."""

    text: str
    count: int

    message = Text("'{text}'{maybe_times}")
    page_message = Text("'{text}'")
    parts = {
        "maybe_times": OptionalPart(" ({times} times)"),
    }

    def values(self) -> Mapping[str, object]:
        return {"times": self.count if self.count > 1 else None}


@dataclass(frozen=True, slots=True)
class Cells(Told):
    """Cells of a column, of which `said` say something: how many they are, the first line, and the commonest texts;
    `more` texts aren't here."""

    field: Field
    title: str
    count: int
    said: int
    line: int
    texts: tuple[TextCount, ...]
    more: int

    message = Counted(
        "{count} of {said} cell that {maybe_of_exits}{maybe_of_others} in the column '{title}'",
        "{count} of {said} cells that {maybe_of_exits}{maybe_of_others} in the column '{title}'",
        "said",
    )
    parts = {
        "maybe_of_exits": OptionalPart("tell of an exit", when="of_exits", one="tells of an exit", value="said"),
        "maybe_of_others": OptionalPart("say something", when="of_others", one="says something", value="said"),
    }

    def values(self) -> Mapping[str, object]:
        return {"of_exits": self.field is Field.EXIT, "of_others": self.field is not Field.EXIT}


class Advice(Worded):
    """What to write where cells of a column can't be read."""

    SEX = "sex"
    BIRTH = "birth"
    EXIT = "exit"
    SINCE = "since"
    EMBRYO = "embryo"

    def words(self) -> str:
        return ADVICE[self]


ADVICE = {
    Advice.SEX: "write M or F, or say which sex each word is by --sexes",
    Advice.BIRTH: (
        "write days as 2001-03-01 or 01.03.2001, or 03.2001 or 2001 alone; or name another column by --columns"
    ),
    Advice.EXIT: (
        "such an animal counts as gone; write days as 2001-03-01 or 01.03.2001, a word such as sold, verkauft or vendu "
        "where the day isn't known, and nothing or alive, lebt or vivant where the animal hasn't left; or name another "
        "column by --columns"
    ),
    Advice.SINCE: "write days as 2001-03-01 or 01.03.2001; or name another column by --columns",
    Advice.EMBRYO: "write 1 or nothing; or name another column by --columns",
}
# of the columns whose cells can't be read
OF_FIELDS = {Field(advice.value): advice for advice in Advice}
# letters that may stand for a castrated male, as for a gelding, a hongre, a Kastrat or a wether
OF_CASTRATED = ("g", "h", "k", "c", "w")
# columns that a sheet may lack
OPTIONAL = (Field.EXIT, Field.SINCE, Field.EMBRYO)


# what stands for a sex in `--sexes`, in words
SAID_SEXES = {"m": "male", "f": "female", "mc": "a castrated male"}


def sexes_of(word: str, *sexes: str) -> tuple[Suggestion, ...]:
    """One says that a word is of a sex, for each of some that it may be; none where a word has signs of the option."""
    if {",", "="} & {*word}:
        return ()
    return tuple(Suggestion(f"if '{word}' is {SAID_SEXES[sex]}", (Option("--sexes", f"{word}={sex}"),)) for sex in sexes)


def sexes_that_may_be(word: str) -> tuple[Suggestion, ...]:
    """The same of a word that isn't known."""
    return sexes_of(word, "m", "f", *(["mc"] if word.casefold() in OF_CASTRATED else []))


def sexes_of_all(sexes: Mapping[str, str]) -> tuple[Suggestion, ...]:
    """One says of which sex each of several words is; none where a word has signs of the option."""
    if any({",", "="} & {*word} for word in sexes):
        return ()
    case = " and ".join(f"'{word}' is {SAID_SEXES[sex]}" for word, sex in sexes.items())
    option = Option("--sexes", ",".join(f"{word}={sex}" for word, sex in sexes.items()))
    return (Suggestion(f"if {case}", (option,)),)


@dataclass(frozen=True, slots=True)
class CellsUnread(SheetFinding):
    """Cells of a column that can't be read, which may be one beside that of the exits: that one's title then."""

    cells: Cells
    beside: str = ""

    code = "cells unread"
    message = Text("{cells} can't be read, the first in line {cells_line}: {cells_texts}{maybe_cells_more}: {advice}")
    page_message = Text(
        "{cells_count} of {cells_said} cells of the column '{cells_title}' that say something can't be read, the first "
        "in line {cells_line}: {cells_texts}{maybe_cells_more}{maybe_advice}",
        "cells_count",
    )
    parts = {
        "maybe_cells_more": OptionalPart(" and {cells_more} more"),
        "maybe_advice": OptionalPart(": {advice}"),
    }

    def values(self) -> Mapping[str, object]:
        return {"advice": OF_FIELDS.get(self.cells.field)}

    def theme(self) -> Field:
        return self.cells.field

    def comes_first(self) -> bool:
        """Many animals may have a word for a sex, and a column that is mostly unread may be another one's."""
        return self.cells.field is Field.SEX or 2 * self.cells.count >= self.cells.said

    def suggestions(self) -> tuple[Suggestion, ...]:
        field, word = self.cells.field, self.cells.texts[0].text
        if field is Field.SEX and not any(map(str.isdigit, word)):
            return sexes_that_may_be(word)
        found = (tells_of_no_exit(word),) if field is Field.EXIT else ()
        # where most is read the column is the right one
        if field in OPTIONAL and 2 * self.cells.count >= self.cells.said and not self.beside:
            found += (Suggestion(f"if no column tells of {OPTIONAL_WORDS[field]}", (column(field, ""),)),)
        return found


OPTIONAL_WORDS = {Field.EXIT: "exits", Field.SINCE: "changes of owners", Field.EMBRYO: "stored embryos"}


@dataclass(frozen=True, slots=True)
class ErrorCells(SheetFinding):
    """Cells that show an error of the spreadsheet: in which columns, the first line, and the values."""

    count: int
    titles: tuple[str, ...]
    line: int
    texts: tuple[str, ...]

    code = "error cells"
    message = Counted(
        "{count} cell with an error of the spreadsheet in {all_titles}, the first in line {line}: {first}: each "
        "counts as empty, and the book keeps what it has; correct the formulas, and take the sheet again",
        "{count} cells with an error of the spreadsheet in {all_titles}, the first in line {line}: {first}: each "
        "counts as empty, and the book keeps what it has; correct the formulas, and take the sheet again",
        "count",
    )

    def values(self) -> Mapping[str, object]:
        return {"all_titles": Quoted(self.titles), "first": Quoted(self.texts[:MOST_SHOWN])}


@dataclass(frozen=True, slots=True)
class ErrorColumn(SheetFinding):
    """A column most of whose cells show an error of the spreadsheet."""

    field: Field
    title: str
    count: int
    filled: int

    code = "error column"
    message = Text(
        "{count} of {filled} cells of the column '{title}' ({field}) show an error of the spreadsheet: correct its "
        "formulas, save the sheet, and take that"
    )


@dataclass(frozen=True, slots=True)
class NarrowCells(ErrorCells):
    """Cells of a column that was too narrow for them when the spreadsheet saved it."""

    code = "narrow cells"
    message = Counted(
        "{count} cell of {all_titles} is '{text}', in line {line}: the column was too narrow when the sheet was "
        "saved; it counts as empty, and the book keeps what it has; widen the column, save the sheet again, and take "
        "that",
        "{count} cells of {all_titles} are '{text}', the first in line {line}: the column was too narrow when the "
        "sheet was saved; they count as empty, and the book keeps what it has; widen the column, save the sheet again, "
        "and take that",
        "count",
    )

    def values(self) -> Mapping[str, object]:
        return {"all_titles": Quoted(self.titles), "text": self.texts[0]}


@dataclass(frozen=True, slots=True)
class NarrowColumn(ErrorColumn):
    """A column that was too narrow for most of its cells."""

    code = "narrow column"
    message = Text(
        "{count} of {filled} cells of the column '{title}' ({field}) show only # signs, since the column was too "
        "narrow when the sheet was saved: widen it, save the sheet again, and take that"
    )


@dataclass(frozen=True, slots=True)
class UnseenDropped(SheetFinding):
    """Cells that have invisible characters, which are read without them."""

    count: int
    line: int

    code = "unseen dropped"
    message = Counted(
        "{count} cell has invisible characters, in line {line}: it is read without them",
        "{count} cells have invisible characters, the first in line {line}: they are read without them",
        "count",
    )


@dataclass(frozen=True, slots=True)
class CutNumber(SheetFinding):
    """Ids that the spreadsheet has cut, as `2,76E+14`."""

    line: int
    text: str
    count: int

    code = "cut number"
    message = Text(
        "line {line}: '{text}' is a long number that the spreadsheet has cut: give the columns of ids the format text, "
        "or number without decimals, save the sheet again, and take that{maybe_several}"
    )
    parts = {
        "maybe_several": OptionalPart(" ({several} such cells)"),
    }

    def values(self) -> Mapping[str, object]:
        return {"several": self.count if self.count > 1 else None}


@dataclass(frozen=True, slots=True)
class FormulaCell(SheetFinding):
    """Formulas in place of their values."""

    line: int
    text: str
    count: int

    code = "formula cell"
    message = Text(
        "line {line}: '{text}' is a formula without its value: open the file in the spreadsheet, save it there, and "
        "take that{maybe_several}"
    )
    parts = {
        "maybe_several": OptionalPart(" ({several} such cells)"),
    }

    def values(self) -> Mapping[str, object]:
        return {"several": self.count if self.count > 1 else None}
