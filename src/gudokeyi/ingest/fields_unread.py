"""Columns that aren't read, and look like what no column is read for: one of sexes, one of exits' days, or one of
animals' names."""
from __future__ import annotations

import collections
import re
from collections.abc import Mapping
from typing import TYPE_CHECKING

from gudokeyi.domain.kinds import Field
from gudokeyi.ingest.column_detection import MOST_COMPARED
from gudokeyi.ingest.days import is_span
from gudokeyi.ingest.exits_beside import KNOWN_BUYERS
from gudokeyi.ingest.findings.rows import FieldUnread
from gudokeyi.ingest.findings.sheets import MOST_SHOWN
from gudokeyi.ingest.sex_marks import marks_told
from gudokeyi.ingest.texts import listed, plain
from gudokeyi.ingest.titles import BETWEEN_WORDS, KNOWN_PAIRS
from gudokeyi.ingest.exit_words import TELLING_EXITS
from gudokeyi.ingest.words import KNOWN_SEXES, LETTER, has_word, sex_word

if TYPE_CHECKING:
    from gudokeyi.ingest.columns import Columns

# so many cells show what a column tells
SOME = 3
# the different words that a column of sexes may have, and the different days that one of exits may
MOST_SEXES, MOST_DIFFERENT = 40, 2000


def tell_unread_fields(columns: Columns, named: Mapping[str, str]) -> None:
    looks = {Field.SEX: looks_like_sexes, Field.EXIT: looks_like_exit_days, Field.NAME: looks_like_names}
    if Field.SEX not in columns.found and named.get(Field.SEX) != "":
        columns.notes += marks_told(columns.sheet, columns.found.values())
    for name, look in looks.items():
        if name in columns.found or named.get(name) == "":
            continue
        free = [at for at, title in enumerate(columns.sheet.titles) if title and columns.is_free(at)]
        for at in free[:MOST_COMPARED]:
            cells = columns.counts(at)
            least = 1 if plain(columns.title(at)) in KNOWN_BUYERS else SOME
            is_some = cells.total() >= least and (len(cells) <= MOST_DIFFERENT or name is Field.NAME)
            if is_some and look(columns.title(at), cells):
                said = tuple([*cells][:MOST_SHOWN])
                columns.notes.append(FieldUnread(name, columns.title(at), cells.total(), said))


def looks_like_sexes(_: str, cells: collections.Counter[str]) -> bool:
    found = [cell for cell in cells if sex_word(cell) in KNOWN_SEXES]
    sexes = {KNOWN_SEXES[sex_word(cell)] for cell in found}
    return len(sexes) == 2 and len(cells) <= MOST_SEXES and 2 * sum(cells[cell] for cell in found) > cells.total()


def looks_like_exit_days(title: str, cells: collections.Counter[str]) -> bool:
    """Is it one of exits' days, or one that says to whom animals were sold?"""
    if plain(title) in KNOWN_BUYERS:
        return any(map(LETTER.search, cells))
    return has_word(title, TELLING_EXITS) and 2 * sum(cells[cell] for cell in cells if is_span(cell)) > cells.total()


# Names of animals.

# words for a name, with which German titles end too
NAMES = re.compile(r"(?P<before>.*?)s?(?:name|names|nom|noms)")
# whose names no animal has, and what stands before a name of a person
OF_OTHERS = KNOWN_PAIRS[Field.SIRE] | KNOWN_PAIRS[Field.DAM] | {
    plain(word) for word in listed(
        "owner, owners, keeper, keepers, breeder, breeders, member, members, buyer, buyers, contact, farm, herd, "
        "flock, holding, kennel, stud, prefix, affix, club, society, sire, sires, dam, dams, father, fathers, mother, "
        "mothers, grandsire, granddam, grandfather, grandmother, first, last, family, middle, given, fore, sur, user, "
        "file, vet, judge, breed, place, town, Besitzer, Eigentümer, Halter, Tierhalter, Züchter, Mitglied, Käufer, "
        "Betrieb, Hof, Stall, Zwinger, Verein, Vater, Mutter, V, M, Vor, Nach, Familien, Zu, Rasse, Rassen, Ort, "
        "Herden, Datei, Richter, Tierarzt, propriétaire, détenteur, éleveur, naisseur, adhérent, acheteur, élevage, "
        "exploitation, troupeau, affixe, père, mère, pré, famille, race, lieu, commune, vétérinaire, juge, Vaters, "
        "Mutters, Besitzers, Eigentümers, Halters, Züchters, Käufers, Großvater, Großmutter, VV, VM, MV, MM, PGS, "
        "PGD, MGS, MGD, donor, recipient, Spender, Empfänger, donneuse, receveuse, address, Adresse, Anschrift, "
        "phone, Telefon, téléphone"
    )
}  # fmt: skip


def looks_like_names(title: str, cells: collections.Counter[str]) -> bool:
    """Is it one of names that are animals' own, as `Name (as in the pedigree)`?"""
    words = [plain(word) for word in BETWEEN_WORDS.split(title)]
    named = [found["before"] for word in words if (found := NAMES.fullmatch(word))]
    return bool(named) and OF_OTHERS.isdisjoint([*words, *named]) and are_names(cells)


def are_names(cells: collections.Counter[str]) -> bool:
    """Do most cells have a text of their own with more letters than digits?"""
    are_texts = sum(cells[cell] for cell in cells if 2 * sum(map(str.isalpha, cell)) > len(cell))
    return 2 * are_texts > cells.total() and 5 * len(cells) >= 4 * cells.total()
