"""Dams of embryos: of a column of carriers and one of genetic dams, as `Leihmutter` and `genetische Mutter`, the
genetic one is the dam, and a carrier never is."""
from __future__ import annotations

from collections.abc import Callable, Mapping, Sequence
from dataclasses import replace
from typing import Container

from gudokeyi.domain.findings import Report
from gudokeyi.domain.kinds import Field
from gudokeyi.ingest.columns import Columns
from gudokeyi.ingest.findings.columns import ColumnsLack
from gudokeyi.ingest.findings.dams import CarriersAlone, GeneticDamsRead
from gudokeyi.ingest.parent_titles import names_parent
from gudokeyi.ingest.parents_by_genes import Written
from gudokeyi.ingest.sheets import Sheet, SheetRow, cell_of
from gudokeyi.ingest.texts import listed, nearly, plain
from gudokeyi.ingest.titles import BETWEEN_WORDS
from gudokeyi.ingest.words import KNOWN_NO, KNOWN_YES

# words of titles of those who carried an embryo, or brought up a young one
CARRIERS = {
    plain(word)
    for word in listed(
        "Träger, Trägerin, Trägertier, Trägermutter, Trägerkuh, Trägerstute, Trägeraue, Trägerschaf, Trägerziege, "
        "Leihmutter, Leihmuttertier, Ersatzmutter, Austragemutter, Austragungsmutter, Empfänger, Empfängerin, "
        "Empfängertier, Empfängermutter, Empfängerkuh, Empfängerstute, Rezipientin, Rezipient, Amme, Ammenmutter, "
        "Ammenkuh, Ziehmutter, Pflegemutter, recipient, recip, carrier, surrogate, foster, nurse, porteuse, "
        "receveuse, nourrice, adoptive"
    )
}
# words of titles of those of whom an embryo is, and those that say so beside one for a dam
DONORS = {
    plain(word)
    for word in listed(
        "Spender, Spenderin, Spendertier, Spendermutter, Spenderkuh, Spenderstute, Spenderaue, Spenderschaf, "
        "Spenderziege, Eizellspenderin, Embryospenderin, donor, donneuse"
    )
}
GENETIC = {
    plain(word)
    for word in listed(
        "genetische, genetisch, genet, gen, biologische, leibliche, echte, genetic, biological, true, génétique, "
        "biologique"
    )
}
ANSWERS = KNOWN_YES | KNOWN_NO


def words_of(title: str) -> set[str]:
    return {plain(word) for word in BETWEEN_WORDS.split(title)} - {""}


def is_carrier(title: str) -> bool:
    return not CARRIERS.isdisjoint(words_of(title))


def is_genetic_dam(title: str) -> bool:
    words = words_of(title)
    if not words.isdisjoint(DONORS):
        return not names_parent(title, Field.SIRE)
    return not words.isdisjoint(GENETIC) and names_parent(title, Field.DAM)


def genetic_columns(sheet: Sheet, columns: Mapping[str, int]) -> list[int]:
    """The column of genetic dams beside another one of dams."""
    if Field.DAM not in columns:
        return []
    free = [at for at, title in enumerate(sheet.titles) if title and at not in columns.values()]
    return [at for at in free if is_genetic_dam(sheet.titles[at]) and names_animals(sheet, columns, at)][:1]


def names_animals(sheet: Sheet, columns: Mapping[str, int], at: int) -> bool:
    """A donor may be of money or of a prize: does the title name a dam, or any cell an animal?"""
    if names_parent(sheet.titles[at], Field.DAM):
        return True
    return any(map(Written(sheet, columns).has, {*sheet.column(at)} - {""}))


# Which column has the dams.


def with_genetic_dam(
    sheet: Sheet, given: Mapping[str, str], before: Mapping[str, str], find: Callable[[Sheet], Columns]
) -> Mapping[str, str]:
    """The titles of before with that of the dams, where it isn't said: without columns of carriers and genetic dams the
    usual one, and else that of the genetic dams."""
    titles = {plain(title) for title in sheet.titles}
    if Field.DAM in given or Field.DAM in before and (not before[Field.DAM] or plain(before[Field.DAM]) in titles):
        return before
    genetic = [at for at, title in enumerate(sheet.titles) if title and is_genetic_dam(title)]
    others = {*genetic, *(at for at, title in enumerate(sheet.titles) if title and is_carrier(title))}
    if not others:
        return before
    masked = replace(sheet, titles=["" if at in others else title for at, title in enumerate(sheet.titles)])
    at = find(masked).found.get(Field.DAM, next(iter(genetic), None))
    return before if at is None else {**before, Field.DAM: sheet.titles[at]}


def without_carriers(columns: Columns) -> None:
    """No carrier is offered as a dam."""
    for at, fault in enumerate(columns.faults):
        if isinstance(fault, ColumnsLack) and any(is_carrier(one.title) for one in fault.likely):
            columns.faults[at] = replace(fault, likely=())


def tell_carriers(columns: Columns, unknown: Container[str]) -> None:
    """Rows that have a carrier, and neither a dam nor a genetic one."""
    sheet, dams = columns.sheet, columns.found.get(Field.DAM)
    carriers = [at for at, title in enumerate(sheet.titles) if title and columns.is_free(at) and is_carrier(title)]
    if dams is None or not carriers:
        return
    of_dams = [columns.cells(at) for at in [dams, *genetic_columns(sheet, columns.found)]]
    lack = [all(dam in unknown for dam in cells) for cells in zip(*of_dams)]
    written = Written(sheet, columns.found)
    for at in carriers:
        both = zip(sheet.rows, lack, columns.cells(at))
        said = [(row.line, text) for row, lacks, text in both if lacks and text not in unknown and written.has(text)]
        if said:
            columns.notes.append(CarriersAlone(columns.title(dams), columns.title(at), len(said), *said[0]))


# The dams of the rows.


def genetic_dams(
    rows: Sequence[SheetRow], sheet: Sheet, columns: Mapping[str, int], unknown: Container[str], report: Report
) -> dict[int, str]:
    """The genetic dams that stand beside other ones, by the places of their rows."""
    found = dict[int, str]()
    for at in genetic_columns(sheet, columns):
        dam = columns[Field.DAM]
        both = [(place, cell_of(row, dam), cell_of(row, at)) for place, row in enumerate(rows)]
        said = [one for one in both if one[2] not in unknown and nearly(one[1]) != nearly(one[2])]
        # of a donor a column may say whether there is one, or who gave something else
        said = [one for one in said if one[2].isdecimal() or one[2].casefold() not in ANSWERS]
        if said and not names_parent(sheet.titles[at], Field.DAM):
            written = Written(sheet, columns)
            said = [one for one in said if written.has(one[2])]
        found = {place: genetic for place, _, genetic in said}
        if said:
            place, other, genetic = said[0]
            other = "" if other in unknown else other
            titles = sheet.titles[dam], sheet.titles[at]
            report.add(0, "", GeneticDamsRead(*titles, len(said), rows[place].line, genetic, other))
    return found
