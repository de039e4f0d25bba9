"""Why a sheet's file, or an option of its reading, or a picture can't be read."""
from __future__ import annotations

import enum

from gudokeyi.domain.messages import Message


@enum.unique
class SheetFault(Message):
    ODS = "{path} is an .ods file: save the sheet as CSV or .xlsx, and take that"
    NO_WORKSHEETS = "{path} is no .xlsx file, and has no worksheets: leave out --worksheet"
    EMPTY = "{path} is empty: its first row has to have the titles of the columns"
    NO_TITLES = "{path} has no titles: its first row has to have the titles of the columns"
    TOO_MANY_ROWS = (
        "{path} has {rows:,} rows, and {most:,} are taken at most: leave out animals that aren't ancestors of those "
        "that you need. To leave out ancestors, such as the oldest animals, changes coefficients"
    )
    TOO_MANY_CELLS = (
        "{path} has more than {most:,} cells, or some far from the others: delete the rows and columns without "
        "animals, and save it again"
    )
    MANY_COLUMNS = (
        "{path} has {columns:,} columns with {letters:,} letters in their titles, and a page shows {most:,} columns "
        "and {most_letters:,} letters at most: delete columns that the book doesn't need, and shorten titles"
    )
    LONG_CELL = "line {line}: a cell has more than {most:,} letters: shorten it. Is a quotation mark missing?"
    TOO_SLOW = (
        "looking at it would take more than {seconds} seconds: is it the right file? Leave out what isn't about "
        "animals"
    )
    TOO_LARGE = "{path} has {size:,} MB, and {most:,} MB are read at most: is it the right file?"
    IS_FOLDER = "{path} is a folder: name the sheet's file"
    CANT_BE_READ = "{path} can't be read: {error}. Is the name right?"
    OPEN_QUOTE = (
        "line {line}: a cell begins with a quotation mark (\") and doesn't end with one, or has one within. Close it, "
        "or write two of them for one within"
    )
    NO_OPENPYXL = "{path} is an .xlsx file, and openpyxl, which reads these, isn't installed: save the sheet as CSV, and take that"
    NO_WORKBOOK = "{path} can't be read as an .xlsx file ({error}): save the sheet as CSV, and take that"
    UNPACKED = "{path} would become {size:,} MB, and no more than {most:,} MB are read: save the sheet alone as CSV, and take that"
    OTHER_KIND = "{path} is {what}: save the sheet as CSV or .xlsx, and take that"
    NO_TEXT = "{path} is no text in UTF-8 or Windows-1252: save the sheet as CSV in UTF-8, and take that"
    # options
    COLUMN_OPTION = "--columns {part}: write FIELD=TITLE, where FIELD is one of {fields}"
    SEX_OPTION = (
        "--sexes {part}: write WORD=m for males, WORD=f for females and WORD=mc for castrated males, as --sexes "
        "Aue=f,Bk=m"
    )


@enum.unique
class OtherKind(Message):
    """What a file is that is no text."""

    XLS = "an old Excel file (.xls)"
    PDF = "a PDF file"
    RTF = "a text with formats (.rtf)"


@enum.unique
class Where(Message):
    """An animal with its line where it has one: as a sentence begins, and within one."""

    LINE = "line {line}: {id}: "
    ANIMAL = "{id}: "
    AT_LINE = "{id} (line {line})"
    WITHOUT_LINE = "{id}"


@enum.unique
class PictureFault(Message):
    """What can't be meant of the society's picture."""

    MISSING = "the picture is missing: choose a PNG or JPEG file"
    TOO_LARGE = "the picture has more than 1 MB: make it smaller"
    MANY_POINTS = "the picture has more than {most} million points: make it smaller"
    NO_PICTURE = "the file can't be read as a PNG or JPEG picture: save it as one of these, and choose that"
