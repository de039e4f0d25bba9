"""Rows between animals that say a sex, as `Böcke` and `Ziegen`, or an owner, where the rows below say none: nothing is
read from them."""
from __future__ import annotations

import itertools
import re
from typing import NamedTuple

from gudokeyi.domain.provenance import BirthSource
from gudokeyi.ingest.animals import SheetAnimal
from gudokeyi.ingest.findings.cells import BETWEEN_CELLS, IdAlone, NoId
from gudokeyi.ingest.findings.rows import OF_OTHERS, NoteRow
from gudokeyi.ingest.odd_texts import counts_as_living
from gudokeyi.ingest.texts import listed, plain
from gudokeyi.ingest.exit_words import says_exits
from gudokeyi.ingest.words import KNOWN_SEXES, has_word, sex_word
from gudokeyi.reconcile.findings.sections import SectionOfBirths, SectionOfExits, SectionOfSex, SectionsOfOwners
from gudokeyi.reconcile.next_book import NextBook

# words for several animals of one sex
SEVERAL = {
    "M": "Böcke, Zuchtböcke, Altböcke, Jungböcke, Widder, Hengste, Zuchthengste, Rüden, Deckrüden, Bullen, Stiere, "
    "Eber, Kater, männliche, Männchen, Vatertiere, dogs, stud dogs, males, sires, stallions, rams, tups, bucks, "
    "billies, bulls, boars, toms, studs, mâles, étalons, béliers, boucs, taureaux, verrats, pères",
    "F": "Ziegen, Mutterziegen, Jungziegen, Geißen, Geissen, Auen, Mutterschafe, Zibben, Stuten, Zuchtstuten, "
    "Hündinnen, Zuchthündinnen, Kühe, Mutterkühe, Sauen, Kätzinnen, weibliche, Weibchen, Muttertiere, bitches, "
    "females, dams, mares, ewes, does, nannies, cows, sows, queens, femelles, juments, brebis, chèvres, vaches, "
    "truies, chiennes, mères",
}
SEXES = {sex_word(word): sex for sex, words in SEVERAL.items() for word in listed(words)} | KNOWN_SEXES
# words that are those of a species too: they say a sex where another row says the other one
OF_SPECIES = {
    plain(word) for word in listed(
        "dogs, dog, Ziegen, Ziege, cows, cow, Katze, Hund, Esel, Pute, chien, chèvres, chèvre, âne, chat, lapin, dinde, "
        "poule"
    )
}  # fmt: skip
# a word of fewer letters may be short for anything
LEAST_LETTERS = 3
WORD = re.compile(r"[^\W\d_]+")


class Section(NamedTuple):
    """A row that says a sex or another thing of the rows below: of these it holds up to the next one."""

    line: int
    text: str
    sex: str


def tell_sections(next_book: NextBook) -> None:
    """Those that say another sex than is inferred of animals below them, and those that may name their owners."""
    sections = sections_of(next_book)
    lines, first = {section.line for section in sections}, sections[0].line if sections else 0
    rows = [one for one in next_book.animals.values() if one.line > first and one.line not in lines] if sections else []
    tell_sexes(next_book, sections, [one for one in rows if one.sex_source.is_inferred])
    tell_owners(next_book, sections, rows)
    tell_exits(next_book, sections, [one for one in rows if counts_as_living(one)])


def tell_owners(next_book: NextBook, sections: list[Section], rows: list[SheetAnimal]) -> None:
    """Rows without a number, each of which stands above animals that have no owner."""
    found = list[tuple[Section, int]]()
    for section, behind in itertools.pairwise([*sections, None]):
        assert section is not None
        owners = [one.owner for one in rows if is_in(one, section, behind)] if may_name(section) else []
        if owners and not any(owners):
            found.append((section, len(owners)))
    if found:
        (first, _), animals = found[0], sum(count for _, count in found)
        next_book.report.add(0, "", SectionsOfOwners(len(found), first.text, first.line, animals))


def tell_exits(next_book: NextBook, sections: list[Section], living: list[SheetAnimal]) -> None:
    """Rows that tell of exits, above animals without one."""
    for section, behind in itertools.pairwise([*sections, None]):
        assert section is not None
        those = [one for one in living if is_in(one, section, behind)] if says_exits(section.text) else []
        if those:
            first = min(those, key=lambda one: one.line)
            next_book.report.add(section.line, "", SectionOfExits(section.text, len(those), first.id, first.line))


def tell_births(next_book: NextBook) -> None:
    """Rows that say something of those below, where no birth day is found for animals of these."""
    sections = sections_of(next_book)
    if not any(has_word(section.text, OF_OTHERS) for section in sections):
        return
    rows = [one for one in next_book.animals.values() if one.birth_basis.source is BirthSource.EARLIEST and one.line]
    for section, behind in itertools.pairwise([*sections, None]):
        assert section is not None
        those = [one for one in rows if is_in(one, section, behind)] if has_word(section.text, OF_OTHERS) else []
        if those:
            first = min(those, key=lambda one: one.line)
            next_book.report.add(section.line, "", SectionOfBirths(section.text, len(those), first.id, first.line))


def may_name(section: Section) -> bool:
    """May it name an owner?"""
    return not section.sex and not any(map(str.isdigit, section.text)) and not {*words_in(section.text)} & OF_SPECIES


def words_in(text: str) -> list[str]:
    return [*map(plain, WORD.findall(text))]


def tell_sexes(next_book: NextBook, sections: list[Section], inferred: list[SheetAnimal]) -> None:
    for section, behind in itertools.pairwise([*sections, None]):
        assert section is not None
        those = [one for one in inferred if is_in(one, section, behind) and section.sex not in ("", one.sex)]
        if those:
            first = min(those, key=lambda one: one.line)
            found = SectionOfSex(section.text, section.sex, len(those), first.id, first.line, first.sex)
            next_book.report.add(section.line, "", found)


def is_in(animal: SheetAnimal, section: Section, behind: Section | None) -> bool:
    return section.line < animal.line and (behind is None or animal.line < behind.line)


def sections_of(next_book: NextBook) -> list[Section]:
    """The rows that are headings, have no id, or say nothing else and are taken for animals, in their order."""
    told = next_book.report.entries
    texts = {one.line: one.finding.text for one in told if isinstance(one.finding, NoteRow | NoId)}
    texts |= {one.line: one.id for one in told if isinstance(one.finding, IdAlone)}
    texts = {line: text for line, text in texts.items() if text and BETWEEN_CELLS not in text}
    found = [Section(line, text, sex_of(text)) for line, text in sorted(texts.items())]
    if len({section.sex for section in found} - {""}) > 1:
        return found
    return [one._replace(sex="" if {*words_in(one.text)} & OF_SPECIES else one.sex) for one in found]


def sex_of(text: str) -> str:
    """The only sex that its words say; empty for none."""
    words = [word for word in WORD.findall(text) if len(word) >= LEAST_LETTERS]
    sexes = {SEXES[sex_word(word)] for word in words if sex_word(word) in SEXES}
    return sexes.pop() if len(sexes) == 1 else ""
