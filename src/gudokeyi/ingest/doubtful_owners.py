"""Texts that stand for an owner and don't look like a name, as `vendu`, `06 12 34 56 78` and `idem mère`."""
from __future__ import annotations

import re

from gudokeyi.ingest.statuses import taker_of_owner
from gudokeyi.ingest.texts import listed, plain
from gudokeyi.ingest.exit_words import DEAD, PLAIN_EXITS, TELLING_EXITS
from gudokeyi.ingest.words import KNOWN_NO_NAMES

WORD, A_DAY = re.compile(r"[^\W_]+"), re.compile(r"\d{1,4}[./-]\d{1,2}[./-]\d{2,4}")
BESIDE = {"am", "on", "le", "im", "in", "en"}
# words of exits with which no name of a person begins
BEGIN_EXITS = PLAIN_EXITS - {"tot", "mort", "dead"} | {"verkauf", "verk", "vente", "abgegeben", "abgegangen", "eingegangen"}
# a telephone number alone has at least nine digits, of which the first is a zero
TELEPHONE = re.compile(
    r"(?:(?:tele(?:f|ph)on|téléphone|tel|tél|phone|mobile?|handy|natel)\b[.:]*\s*)?(?=(?:\D*\d){9,15}\D*$)"
    r"(?:\+|\(?0)[\d\s()/.-]+",
    re.IGNORECASE,
)
# what says that the owner is the one of another animal or row, and of which one
REFERS = {plain(word) for word in listed("idem, id, dito, ditto, detto, wie, siehe, same, see, comme, voir, même")}
REFERRED = {
    plain(word) for word in listed(
        "Mutter, Vater, Eltern, Besitzer, Eigentümer, Halter, Züchter, oben, unten, mère, père, parents, propriétaire, "
        "détenteur, éleveur, naisseur, dessus, dessous, haut, bas, précédent, dam, sire, mother, father, owner, keeper, "
        "breeder, above, below"
    )
}  # fmt: skip
AROUND = {plain(word) for word in listed("der, die, das, bei, von, la, le, les, que, de, du, des, ci, plus, the, as, of, s")}


def is_no_name(owner: str) -> bool:
    """Does it read like an exit or a day, like a word for somebody, as `breeder`, or say whose owner is meant?"""
    if A_DAY.fullmatch(owner) or plain(owner) in KNOWN_NO_NAMES:
        return True
    words = {plain(word) for word in WORD.findall(owner) if not word.isdigit()}
    said = words - BESIDE
    return refers_to_another(words) or (said <= TELLING_EXITS if said else DEAD.search(owner) is not None)


def refers_to_another(words: set[str]) -> bool:
    """Do these words say that the owner is that of another animal or row, as `wie Mutter`?"""
    return not (REFERS.isdisjoint(words) or REFERRED.isdisjoint(words)) and words <= REFERS | REFERRED | AROUND


def is_telephone(owner: str) -> bool:
    return TELEPHONE.fullmatch(owner) is not None


def tells_of_exit(owner: str) -> bool:
    """Does it begin with an exit, as `exportiert nach Polen`, or tell to whom the animal was sold?"""
    return plain(owner.partition(" ")[0]) in BEGIN_EXITS or bool(taker_of_owner(owner))
