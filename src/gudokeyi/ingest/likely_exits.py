"""A column of days that isn't read, all of them behind the births, in a sheet without a column of exits: it may say
when animals left."""
from __future__ import annotations

import functools
from collections.abc import Mapping

from gudokeyi.domain.kinds import Field
from gudokeyi.ingest.column_detection import MOST_COMPARED
from gudokeyi.ingest.columns import Columns
from gudokeyi.ingest.days import Span, Unreadable, read_span
from gudokeyi.ingest.findings.columns_unread import MayBeExits
from gudokeyi.ingest.texts import listed
from gudokeyi.ingest.words import KNOWN_NO_EXITS, has_word

# so many days show what a column has, and so many of its rows at most are looked at
FEW, MOST_ROWS = 3, 2000
# of so great a part of the rows at most exits are told: all animals of a list have been born, tagged and filed
MOST_GONE = 0.9
# parts of titles whose days tell of something else
OTHER_DAYS = tuple(
    word.casefold()
    for word in listed(
        "impf, vacc, wieg, weigh, wäg, pesée, test, prüf, prob, dna, adn, kontroll, control, contrôl, scan, deck, "
        "beleg, besam, insem, saill, cover, mating, served, tupp, lamb, lamm, kidd, kalb, calv, wurf, litter, "
        "ablamm, agnel, mise bas, geburt, birth, born, naiss, eintrag, regist, erfass, enreg, inscri, änder, "
        "modif, update, stand, körung, gekört, linear, prämi, bewert, beurteil, classif, schau, show, ausstell, "
        "concours, kastr, castr, geld, schur, shear, shorn, tont, entwurm, worm, vermif, absetz, wean, sevr, "
        "chip, marke, tagged, tagging, boucl, rechnung, invoice, factur, zahl, paid, pay, diplom, zertif, certif, "
        "ausweis, abstamm, zugang, kauf, achat, bought, purch, acqui, entr, eingang, import, aufnahme, aufgenommen, "
        "herdbuch, book, genehm, approv, agré, anerk, kör, punkt, blut, blood, sang, haar, hair, sample, foto, "
        "photo, inspect, visit, druck, print, brief, letter, mitglied, member, seit, since, depuis, expir, "
        "ablauf, gültig, valid, vet, tierarzt, behandl, treat, trait"
    )
)


def tell_likely_exits(columns: Columns, named: Mapping[str, str]) -> None:
    """Told where no column of exits is found, or is looked at already, and nobody says that there is none."""
    births = columns.found.get(Field.BIRTH)
    told = any(getattr(one, "as_field", "") in (Field.EXIT, Field.STATUS) for one in columns.notes)
    if births is None or told or Field.EXIT in columns.found or named.get(Field.EXIT) == "":
        return
    free = [at for at, title in enumerate(columns.sheet.titles) if title and columns.is_free(at)]
    for at in [at for at in free[:MOST_COMPARED] if not tells_of_other_days(columns.title(at))]:
        if found := may_be_exits(columns, at, births):
            columns.notes.append(found)


def tells_of_other_days(title: str) -> bool:
    return has_word(title, KNOWN_NO_EXITS) or any(word in title.casefold() for word in OTHER_DAYS)


def may_be_exits(columns: Columns, at: int, births: int) -> MayBeExits | None:
    """The finding on a column all of whose cells are days behind the births of their rows."""
    both = zip(columns.sheet.rows, columns.cells(at), columns.cells(births))
    said = [(row.line, text, birth) for row, text, birth in both if text]
    if not FEW <= len(said) <= MOST_GONE * len(columns.sheet.rows):
        return None
    span = functools.cache(span_of)
    for _, text, birth in said[:MOST_ROWS]:
        day, born = span(text), span(birth)
        if day is None or not day.is_day or born is not None and day.first <= born.last:
            return None
    line, text, _ = said[0]
    return MayBeExits(columns.title(at), len(said), line, text)


def span_of(text: str) -> Span | None:
    try:
        return read_span(text, legible=False)
    except Unreadable:
        return None
