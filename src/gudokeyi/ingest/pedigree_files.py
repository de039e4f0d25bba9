"""The lines of a geneticist's pedigree, which of its columns has what, and lists of ids."""
from __future__ import annotations

import csv
import functools
import pathlib
import re
import sys
from collections.abc import Callable, Mapping
from typing import NamedTuple

from gudokeyi.domain.cells import from_spreadsheets, may_have_texts
from gudokeyi.domain.findings import ImportRefused
from gudokeyi.domain.kinds import Field
from gudokeyi.domain.messages import Mistake, counted
from gudokeyi.domain.spelling import closest
from gudokeyi.ingest.encodings import decoded
from gudokeyi.ingest.files import MOST_LETTERS, GivenFile, bounded, read_all, read_bytes, read_file
from gudokeyi.ingest.messages import SheetFault
from gudokeyi.ingest.titles import KNOWN_TITLES
from gudokeyi.ingest.texts import composed, listed, plain

# The lines of a geneticist's pedigree: a text file, or what comes from standard input.

# how standard input is named
STANDARD_INPUT = pathlib.Path("-")
# where blanks stand between cells, an id with blanks has quotation marks
QUOTED = r'"(?:\\"|[^"])*"'
CELL = re.compile(rf"{QUOTED}|\S+")
# how some programs keep a spreadsheet from taking away zeros
KEPT = re.compile(r'="[^"]*"')
# the titles of PLINK 2 begin as a comment does
TITLES_OF_PLINK = re.compile(r"#(?=[FI]ID\s)")


class Line(NamedTuple):
    """A line that has cells."""

    number: int
    cells: list[str]

    def __str__(self) -> str:
        return f"line {self.number}: '{' '.join(self.cells)}'"


def read_lines(file: GivenFile) -> list[Line]:
    """The lines that have cells; `#` begins a comment. The first line says what stands between cells."""
    text, _ = decoded(file.path, file.data)
    numbered = enumerate((TITLES_OF_PLINK.sub("", line) if line[:1] == "#" else line for line in text.splitlines()), 1)
    lines = [(number, part) for number, part in numbered if part.strip() and not part.lstrip().startswith("#")]
    separator = separator_of(lines[0][1]) if lines else None
    return [Line(number, cells_of(number, part, separator)) for number, part in lines]


def separator_of(first: str) -> str | None:
    """What stands between the cells of a file, by its first line; nothing where blanks do."""
    return next((one for one in ";\t," if one in first), None)


def cells_of(number: int, part: str, separator: str | None) -> list[str]:
    """The cells of a line; without a separator blanks stand between them."""
    if separator:
        # a quotation mark may stand behind a blank
        try:
            row = next(csv.reader([part], delimiter=separator, skipinitialspace=separator != "\t"))
        except csv.Error:
            # longer than Python's module reads, and so than a cell may be
            raise Mistake(SheetFault.LONG_CELL.said(line=number, most=MOST_LETTERS)) from None
        cells = [cell.strip() for cell in row]
        cells = [cell[2:-1] if KEPT.fullmatch(cell) else cell for cell in cells] if '="' in part else cells
        return [*map(from_spreadsheets, cells)] if may_have_texts(part) else cells
    check_blanks(number, part)
    return [unquoted(cell) for cell in CELL.findall(part)]


def unquoted(cell: str) -> str:
    """A cell without its quotation marks; those that it has within have a backslash before them."""
    inner = cell[1:-1] if len(cell) > 1 and cell[0] == cell[-1] == '"' else cell.strip('"')
    return inner.replace('\\"', '"').strip()


def given_file(path: pathlib.Path, is_pedigree: bool, any_size: bool = False) -> GivenFile:
    """The file of a sheet or of a pedigree, which may come from standard input."""
    if any_size:
        return GivenFile(path, sys.stdin.buffer.read() if path == STANDARD_INPUT else read_all(path))
    return GivenFile(path, given_bytes(path)) if is_pedigree else read_file(path)


def given_bytes(path: pathlib.Path) -> bytes:
    return standard_input() if path == STANDARD_INPUT else read_bytes(path)


@functools.cache
def standard_input() -> bytes:
    """It comes only once."""
    return bounded(STANDARD_INPUT, sys.stdin.buffer)


def check_blanks(number: int, part: str) -> None:
    other = next((one for one in (";", ",") if one in part and one in re.sub(QUOTED, "", part)), None)
    if other:
        why = (
            f"has '{other}', and the first line has blanks between its cells: write all lines with the same between"
            " them"
        )
        raise Mistake(f"line {number}: '{part.strip()}' {why}")


# Which column of a geneticist's pedigree has what, by the titles that the usual programs write.

# Beside the titles of sheets those of R's packages (optiSel, kinship2, pedigreemm, nadiv, purgeR, MCMCglmm), of PLINK,
# and of the programs of evaluation centres.
TITLES = {
    Field.ID: "indiv, individual, ind, idnum, iid, label, calf, anim, aid, progeny, offspring, kid, child, self, "
    "subject, genotype, clone, tree, fish, name, filho, produto, animal_id, nom, hijo, cria, individuo",
    Field.SIRE: "pat, dad, dadid, fatherid, father id, paternal id, pid, sid, sire number, pai, padre, pere, "
    "male parent, pollen parent",
    Field.DAM: "mat, mom, momid, mum, motherid, mother id, maternal id, mid, did, dam number, mae, madre, mere, "
    "female parent, seed parent",
    Field.SEX: "sexo, sexo animal, sex code",
    Field.BIRTH: "yob, byear, birthyear, birthdate, bdate, cohort, nascimento, data de nascimento, nacimiento, "
    "fecha de nacimiento, fechanacimiento",
}  # fmt: skip
# titles that are read beside others alone: an animal may have such an id
SHORT = {Field.SIRE: "s, f, p", Field.DAM: "d, m"}
# of a column of families, each with ids of its own, as PLINK and kinship2 have them
FAMILIES = ("fid", "famid", "family", "familyid", "pedid", "ped", "pedigree", "pedigreeid")
NEEDED = (Field.ID, Field.SIRE, Field.DAM)
READ = (*NEEDED, Field.SEX, Field.BIRTH)
OF_FIELD = {
    field: list(dict.fromkeys([*KNOWN_TITLES[field], *(plain(title) for title in listed(TITLES[field]))]))
    for field in READ
}
SHORT_OF_FIELD = {field: [plain(title) for title in listed(titles)] for field, titles in SHORT.items()}
KNOWN = {title for titles in OF_FIELD.values() for title in titles}

Columns = dict[Field, int]
WITHOUT_TITLES: Columns = {Field.ID: 0, Field.SIRE: 1, Field.DAM: 2}


def are_titles(cells: list[str], given: Mapping[Field, str]) -> bool:
    """Is one of them a known title, or one that is given?"""
    wanted = KNOWN | {plain(title) for title in given.values() if title}
    return any(plain(cell) in wanted for cell in cells)


def find_pedigree_columns(line: int, cells: list[str], given: Mapping[Field, str]) -> Columns:
    """The columns of a line of titles: those that are given, and else those of the likeliest titles."""
    titles = [plain(cell) for cell in cells]
    found: Columns = {}
    for field in READ:
        if field in given:
            if given[field]:
                found[field] = given_place(line, cells, field, given)
            continue
        usual = [*OF_FIELD[field], *SHORT_OF_FIELD.get(field, ())]
        at = next((titles.index(title) for title in usual if title in titles), None)
        if at is not None and at not in found.values():
            found[field] = at
    missing = [field for field in NEEDED if field not in found]
    if missing:
        from gudokeyi.ingest.findings.columns import LikelyColumn, PedigreeTitlesLack

        free = [cell for at, cell in enumerate(cells) if at not in found.values() and cell]
        likely = (
            [LikelyColumn(field, title) for field, title in zip(missing, free)] if len(free) >= len(missing) else []
        )
        raise ImportRefused(PedigreeTitlesLack(line, tuple(missing), tuple(cells), tuple(likely)))
    return found


def family_column(cells: list[str]) -> int | None:
    return next((at for at, cell in enumerate(cells) if plain(cell) in FAMILIES), None)


def given_place(line: int, cells: list[str], field: Field, given: Mapping[Field, str]) -> int:
    title = given[field]
    places = [at for at, cell in enumerate(cells) if cell == title]
    places += [at for at, cell in enumerate(cells) if plain(cell) == plain(title)]
    if not places:
        from gudokeyi.ingest.findings.columns import NamedColumnLacks

        meant = closest(title, [cell for cell in cells if cell and cell not in given.values()], 1)
        raise ImportRefused(NamedColumnLacks(line, field, title, tuple(cells), meant[0] if meant else ""))
    return places[0]


def columns_read(cells: list[str], columns: Columns) -> str:
    used = [f"{field.value} from '{cells[at]}'" for field, at in columns.items()]
    unread = [f"'{cell}'" for at, cell in enumerate(cells) if cell and at not in columns.values()]
    return f"columns: {', '.join(used)}" + (f"; not read: {', '.join(unread)}" if unread else "")


def check_cells(line: Line, titles: Line | None, last: int) -> None:
    """A line has a cell for each column that is read, and none without a title."""
    count = len(line.cells)
    if count <= last:
        raise Mistake(f"{line} has {counted(count, 'cell')}: write an id, its sire and its dam, 0 for an unknown one")
    if titles is None and any(line.cells[3:]):
        raise Mistake(
            f"{line} has {count} cells, and without titles each line has an id, its sire and its dam alone: "
            "write a first line with the titles of all columns, as `row id sire dam`"
        )
    if titles and any(line.cells[len(titles.cells) :]):
        raise Mistake(
            f"{line} has {count} cells, and line {titles.number} has {len(titles.cells)} titles: write one for each "
            "column (R writes such a file without row.names = FALSE), or an id with blanks in quotation marks"
        )


# Lists of animals, as options name them: a file with one id a line.


def read_ids(path: pathlib.Path, is_known: Callable[[str], bool]) -> list[str]:
    """The ids in their order, each once: a whole line where that is known, else its first cell. A first line may be a
    title."""
    text, _ = decoded(path, given_bytes(path))
    lines = [" ".join(line.split()) for line in text.splitlines() if line.strip()]
    if not text.isascii():
        lines = [line if is_known(line) else composed(line) for line in lines]
    # an id may begin as a comment does
    lines = [line for line in lines if not line.startswith("#") or is_known(line)]
    if lines and not is_known(lines[0]) and plain(first_cell(lines[0])) in OF_FIELD[Field.ID]:
        del lines[0]
    ids = [line if is_known(line) else first_cell(line) for line in lines]
    if not ids:
        raise Mistake(f"{path} names no animal: write the ids, one a line")
    return list(dict.fromkeys(ids))


def first_cell(line: str) -> str:
    separator = next((one for one in ";,\t" if one in line), None)
    if separator:
        try:
            return next(csv.reader([line], delimiter=separator))[0].strip()
        except csv.Error:
            # longer than Python's module reads: no animal has such an id
            return line.partition(separator)[0].strip()
    found = re.match(r'"([^"]*)"|(\S+)', line)
    return (found[1] or found[2]) if found else line
