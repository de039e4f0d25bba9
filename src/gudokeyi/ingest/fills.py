"""Rows of a worksheet that are filled grey, as people mark what is over, or with a colour that means something else."""
from __future__ import annotations

import collections
import math
import operator
import re
from collections.abc import Collection, Mapping
from typing import Any

# patterns that are grey by themselves
GREY_PATTERNS = {"gray125", "gray0625", "lightGray", "mediumGray", "darkGray"}
# so far the parts of a grey colour lie apart, and so light and dark is one at most: each is of 255
MOST_APART, LIGHTEST, DARKEST = 14, 246, 40
# colours by which a theme's are made, in the order in which cells count them
OF_THEME = ("lt1", "dk1", "lt2", "dk2", *(f"accent{at}" for at in range(1, 7)))
THEME_COLOR = re.compile(rb'<a:(lt1|dk1|lt2|dk2|accent[1-6])>.*?(?:srgbClr val|lastClr)="([0-9A-Fa-f]{6})"', re.DOTALL)
Parts = tuple[float, float, float]
# of a cell with its row and its column: is it filled grey?
IS_GREY = operator.itemgetter(2)


def filled_lines(sheet: Any, rows: Collection[tuple[int, list[str]]]) -> tuple[list[int], dict[int, int]]:
    """The rows of a worksheet that are filled grey, and those of other colours; `rows` are those with text."""
    return grey_lines(sheet), colored_lines(sheet, rows)


def grey_lines(sheet: Any) -> list[int]:
    """The numbers of the rows most of whose cells with text are filled grey, but for columns that are grey."""
    book = sheet.parent
    theme = colors_of(book.loaded_theme or b"")
    grey = {at for at, fill in enumerate(book._fills) if is_grey(fill, theme)}
    # few workbooks have a grey cell
    if not any(style.fillId in grey for style in book._cell_styles):
        return []
    there = (one for one in sheet._cells.items() if one[1].value is not None)
    cells = [(row, column, cell._style.fillId in grey) for (row, column), cell in there]
    in_column, of_column = (collections.Counter(one[1] for one in these) for these in (filter(IS_GREY, cells), cells))
    marking = [one for one in cells if 2 * in_column[one[1]] <= of_column[one[1]]]
    in_row, of_row = (collections.Counter(one[0] for one in these) for these in (filter(IS_GREY, marking), marking))
    return sorted(row for row, count in in_row.items() if 2 * count > of_row[row])


def colored_lines(sheet: Any, rows: Collection[tuple[int, list[str]]]) -> dict[int, int]:
    """The numbers of the rows of whose cells with text at least half have one fill that isn't grey, with that of the
    fill. One that most of a column has marks no row."""
    book = sheet.parent
    theme = colors_of(book.loaded_theme or b"")
    colored = {at for at, fill in enumerate(book._fills) if is_colored(fill, theme)}
    # few workbooks have such a cell
    if not any(style.fillId in colored for style in book._cell_styles):
        return {}
    those = ((place, cell) for place, cell in sheet._cells.items() if cell._style.fillId in colored)
    cells = [(*place, cell._style.fillId) for place, cell in those if cell.value is not None]
    in_column = collections.Counter((column, fill) for _, column, fill in cells)
    in_row = collections.Counter((row, fill) for row, column, fill in cells if 2 * in_column[column, fill] <= len(rows))
    marked = {row for row, _ in in_row}
    of_row = {row: sum(map(bool, texts)) for row, texts in rows if row in marked}
    return {row: fill for (row, fill), count in in_row.items() if 2 * count >= of_row.get(row, math.inf)}


def colors_of(theme: bytes) -> dict[int, Parts]:
    """The colours of a theme: white and black, a light one and a dark one, by which cells are grey, and others."""
    found = {OF_THEME.index(name.decode()): parts_of(color.decode()) for name, color in THEME_COLOR.findall(theme)}
    return {at: parts for at, parts in found.items() if parts}


def is_grey(fill: Any, theme: Mapping[int, Parts]) -> bool:
    pattern = getattr(fill, "patternType", None)
    if pattern in GREY_PATTERNS:
        return True
    parts = shown(fill.fgColor, theme) if pattern == "solid" else None
    return parts is not None and max(parts) - min(parts) <= MOST_APART and DARKEST <= min(parts) <= LIGHTEST


def is_colored(fill: Any, theme: Mapping[int, Parts]) -> bool:
    parts = shown(fill.fgColor, theme) if getattr(fill, "patternType", None) == "solid" else None
    return parts is not None and max(parts) - min(parts) > MOST_APART


def shown(color: Any, theme: Mapping[int, Parts]) -> Parts | None:
    """The colour as a screen shows it; none where it isn't known."""
    if color.type == "theme":
        parts = theme.get(color.theme)
    elif color.type == "indexed":
        from openpyxl.styles.colors import COLOR_INDEX

        parts = parts_of(COLOR_INDEX[color.indexed]) if color.indexed < len(COLOR_INDEX) else None
    else:
        parts = parts_of(str(color.rgb))
    return tinted(parts, color.tint or 0.0) if parts else None


def parts_of(color: str) -> Parts | None:
    """Red, green and blue, of a colour with or without what shines through."""
    digits = color[-6:]
    if not re.fullmatch(r"[0-9A-Fa-f]{6}", digits):
        return None
    red, green, blue = (int(digits[at : at + 2], 16) for at in (0, 2, 4))
    return red, green, blue


def tinted(parts: Parts, tint: float) -> Parts:
    """The same made darker, below 0, or lighter."""
    red, green, blue = (part * (1 + tint) if tint < 0 else part + (255 - part) * tint for part in parts)
    return red, green, blue
