"""Columns whose titles may be those of owners, as `Mitglied` and `Bes.`: their cells show whether they have names."""
from __future__ import annotations

import collections
import re

from gudokeyi.ingest.sheets import Sheet
from gudokeyi.ingest.texts import listed, plain
from gudokeyi.ingest.unknown_parents import names_no_owner
from gudokeyi.ingest.words import KNOWN_NO, KNOWN_STAYS, KNOWN_YES

MEMBERS = {
    plain(title)
    for title in listed(
        "Mitglied, Mitgliedsname, Name Mitglied, Name des Mitglieds, member, member name, name of member, "
        "member's name, membre, nom membre, nom du membre, adhérent, adhérente, nom adhérent, nom de l'adhérent, "
        "sociétaire, nom du sociétaire, Inhaber, Inhaberin, holder"
    )
}
# short for words for owners, and for others, as `Besonderheiten`
SHORT_TITLES = {plain(title) for title in listed("Bes, Eig, Eigent, prop, propriét")}
# what columns of members say of their kinds
KINDS = KNOWN_STAYS | {
    plain(word)
    for word in listed(
        "passiv, Passivmitglied, Aktivmitglied, Ehrenmitglied, Ehren, Vollmitglied, Gönner, Mitglied, full, associate, "
        "honorary, life, junior, member, passif, passive, honoraire, membre, adhérent"
    )
}
# a name has so many letters, and so great a part of the rows has one below a short title
LEAST_LETTERS, LEAST_PART = 3, 0.75


def names_owners(sheet: Sheet, at: int) -> bool:
    """Are most of the different cells names? Below a short title one of them stands in several rows."""
    title = plain(sheet.titles[at])
    if title not in MEMBERS | SHORT_TITLES:
        return False
    counts = collections.Counter(cell for cell in sheet.column(at) if not names_no_owner(cell))
    names = [cell for cell in counts if is_name(cell)]
    are_names = 2 * len(names) > len(counts)
    if title in MEMBERS:
        return are_names
    return are_names and counts.total() >= LEAST_PART * len(sheet.rows) and max(counts.values()) > 1


def is_name(text: str) -> bool:
    letters = re.sub(r"[\W\d_]", "", text)
    is_word = text.casefold() in KNOWN_YES | KNOWN_NO or plain(text) in KINDS
    return len(letters) >= LEAST_LETTERS and letters[0].isupper() and not is_word


def owners_by_cells(sheet: Sheet) -> list[int]:
    """The columns of such a title that have names."""
    return [at for at in range(len(sheet.titles)) if names_owners(sheet, at)]
