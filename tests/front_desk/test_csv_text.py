"""Columns are written as `csv` writes them, and what is looked at as one text is what cell by cell would be seen."""
from __future__ import annotations

import csv
import io
import random
import unicodedata

import pytest

from gudokeyi.domain.cells import ACTING, column_for_spreadsheets, csv_text, escape, for_spreadsheets, for_terminals
from gudokeyi.services.tables import Kind, Table

# pieces of which cells are drawn
PLAIN = ("a", "Löwe", "7", " ", ".", "'", "ō", "=", "-", "＝")
QUOTED = (",", ";", '"', "\n", "\r", "\r\n")


def cell(draw: random.Random, pieces: tuple[str, ...]) -> object:
    if draw.random() < 0.1:
        return draw.choice((None, 0, -3, 2.5))
    return "".join(draw.choices(pieces, k=draw.randrange(4)))


def by_csv(titles: list[str], columns: list[list[object]], delimiter: str, order: list[int] | None = None) -> str:
    text = io.StringIO()
    writer = csv.writer(text, delimiter=delimiter, lineterminator="\n")
    writer.writerow(titles)
    rows = [*zip(*columns)]
    writer.writerows(rows if order is None else [rows[at] for at in order])
    return text.getvalue()


@pytest.mark.parametrize("delimiter", ",;")
@pytest.mark.parametrize("pieces", [PLAIN, PLAIN + QUOTED], ids=["plain", "quoted"])
def test_columns_are_written_as_csv_writes_them(pieces: tuple[str, ...], delimiter: str) -> None:
    draw = random.Random(5)
    for _ in range(200):
        rows = draw.randrange(5)
        columns = [[cell(draw, pieces) for _ in range(rows)] for _ in range(draw.randrange(1, 5))]
        titles = [f"{draw.choice(pieces)}x" for _ in columns]
        order = draw.choice((None, draw.sample(range(rows), rows)))
        assert csv_text(titles, columns, delimiter, order) == by_csv(titles, columns, delimiter, order)


@pytest.mark.parametrize("sign", [",", '"', "\n", "\r"])
def test_one_cell_that_needs_quotes_has_them(sign: str) -> None:
    columns: list[list[object]] = [["a", "b"], ["c", f"d{sign}e"]]
    assert csv_text(["x", "y"], columns) == by_csv(["x", "y"], columns, ",")


def test_an_empty_cell_alone_in_its_row_is_no_empty_line() -> None:
    assert csv_text(["x"], [["a", "", "b"]]) == 'x\na\n""\nb\n'


def test_a_table_without_rows_has_its_titles() -> None:
    table = Table.of_rows([("a", Kind.TEXT), ("b", Kind.DECIMAL)], [])
    assert (len(table), table.rows, table.text(False), table.text(True)) == (0, [], "a,b\n", "a;b\n")


def test_each_formula_of_a_column_is_seen() -> None:
    for sign in "=+-@\t\r＝＋－＠":
        assert column_for_spreadsheets(["a", f"{sign}a1", "b"]) == ["a", f"'{sign}a1", "b"]
        assert column_for_spreadsheets([f"{sign}1+1", 7]) == [f"'{sign}1+1", 7]


def test_a_number_with_a_sign_is_no_formula() -> None:
    numbers = ["-2", "+5", "-007", "-2.5", "+2,5"]
    assert column_for_spreadsheets(numbers) == numbers
    assert for_spreadsheets("-٢") == "'-٢"


def test_columns_are_as_their_cells_one_by_one() -> None:
    draw = random.Random(6)
    for _ in range(500):
        cells = [str(cell(draw, PLAIN + QUOTED)) for _ in range(draw.randrange(6))]
        assert list(column_for_spreadsheets(cells)) == list(map(for_spreadsheets, cells))


def test_a_terminal_gets_no_character_that_does_something_though_most_are_printable() -> None:
    for number in [*range(0x300), 0x61C, *range(0x2000, 0x2070), 0xD800, 0xDFFF, 0xFEFF, 0x1F404]:
        text = f"Bertha{chr(number)}\nLöwe"
        assert for_terminals(text) == ACTING.sub(lambda found: escape(found[0]), text)
    assert for_terminals("\a\x1b[1m\x7f\u061c\u2067\ud800") == r"\x07\x1b[1m\x7f\u061c\u2067\ud800"


def test_which_characters_do_something() -> None:
    """Those of control but tabs and ends of lines, halves of characters, and marks of direction."""
    marks = {"LRE", "RLE", "PDF", "LRO", "RLO", "LRI", "RLI", "FSI", "PDI"}

    def acts(one: str) -> bool:
        is_control = unicodedata.category(one) in ("Cc", "Cs") and one not in "\t\n"
        return is_control or unicodedata.bidirectional(one) in marks or one in "\u061c\u200e\u200f"

    assert not [hex(ord(one)) for one in map(chr, range(0x10000)) if (for_terminals(one) != one) != acts(one)]
