"""What pages tell of a sheet in German and French says what it says in English, and no English word is in it."""
from __future__ import annotations

import datetime
import re
from collections.abc import Iterator
from typing import Any

import pytest

from gudokeyi.domain.kinds import Field, Role
from gudokeyi.domain.provenance import BirthBasis, BirthSource, ExitBasis, ExitSource, Period, SexSource
from gudokeyi.domain.refusals import Refusal
from gudokeyi.domain.settings import LANGUAGES
from gudokeyi.ingest.findings.exits import ExitInferred
from gudokeyi.ingest.findings.same_ids import IdAgain
from gudokeyi.reconcile.findings.animals import BirthDayInferred, KeptByHand, KeptFromBook, RowIsGone
from gudokeyi.reconcile.findings.by_hand import ValueChanged
from gudokeyi.reconcile.findings.parents import DayFact, ParentRefused
from gudokeyi.reconcile.findings.rows import OwnerDayInferred
from gudokeyi.render.page_language import PageLanguage
from gudokeyi.render.page_wording import sentence_of

DAY = datetime.date(2001, 2, 3)
QUOTED = re.compile("[«„].*?[»“]")
# words of the book that stand for something
OF_BOOK = ("day unknown", "yes")


def findings_with_words() -> Iterator[Any]:
    """Findings whose values are words of the book, or names of fields."""
    for fact in ("exit", "stored embryo", "castrated"):
        yield from (ValueChanged(fact, after, before) for after in OF_BOOK for before in OF_BOOK)
    yield ValueChanged("sex", "male", "female")
    for name in ("birth day", "owner since", "sire", "dam", "number", "name"):
        yield ValueChanged(name, "2001-02-03", "")
    for field in Field:
        yield IdAgain(3, ("", "A-1"), ("A-1", ""), ((field.value, "x", "2001-02-03"),))
    yield KeptByHand(Field.EMBRYO, "yes")
    yield from (KeptFromBook(Field.SEX, sex, False) for sex in "MF")
    for source in BirthSource:
        if source is not BirthSource.PERIOD:
            yield BirthDayInferred(DAY, BirthBasis(source), True, 2)
    yield BirthDayInferred(DAY, BirthBasis(BirthSource.PERIOD, Period("2001-02", "31.02.2001")), False, 0)
    yield OwnerDayInferred(DAY, Period("2001-02", "31.02.2001"))
    yield ExitInferred(DAY, ExitBasis(ExitSource.PERIOD, Period("2001-02", "31.02.2001")), "")
    yield from (RowIsGone(had_row, is_dropped) for had_row in (True, False) for is_dropped in (True, False))


@pytest.mark.parametrize("finding", findings_with_words(), ids=str)
def test_words_of_book(finding: Any) -> None:
    """No word of the book, nor a name of a field, stands in English in another language, nor does a day or a month."""
    english = {*Field, "day unknown", "yes", "male", "female", "castrated", "2001-02", "owner since", "birth day"}
    english -= {Field.NAME, Field.EMBRYO}
    for language in LANGUAGES[1:]:
        told = QUOTED.sub("", sentence_of(finding, PageLanguage(language)).text)
        pattern = rf"(?<!\w)({'|'.join(map(re.escape, english))})(?!\w)|\b[MF]\b"
        assert not re.search(pattern, told), told


@pytest.mark.parametrize(
    "finding, german, french",
    [
        (BirthDayInferred(DAY, BirthBasis(BirthSource.OFFSPRING), True, 0),
         "Geburtstag 03.02.2001, wie im Herdbuch, aus den Nachkommen",
         "date de naissance 03/02/2001, comme dans le livre, d'après les descendants"),
        (BirthDayInferred(DAY, BirthBasis(BirthSource.PERIOD, Period("2001", "12.13.2001")), False, 0),
         "Geburtstag 03.02.2001, aus Monat oder Jahr: 2001, denn den Tag 12.13.2001 gibt es nicht",
         "date de naissance 03/02/2001, d'après le mois ou l'année\u00a0: 2001, car le jour 12.13.2001 n'existe pas"),
        (ValueChanged("exit", "2001-02-03", "day unknown"),
         "Abgang: 03.02.2001, vorher Tag unbekannt", "sortie\u00a0: 03/02/2001, avant jour inconnu"),
        (IdAgain(3, ("A", "B"), ("A", "B"), (("birth", "2001-02-03", "ca. 2001"),)),
         "die Zeile ist weggelassen: Zeile 3 hat diese Ohrmarke auch; Geburtstag: „03.02.2001“, dort „ca. 2001“",
         "la ligne est omise\u00a0: la ligne 3 a aussi cette boucle\u00a0; Date de naissance\u00a0: "
         "«\u00a003/02/2001\u00a0», là «\u00a0ca. 2001\u00a0»"),
        (IdAgain(3, ("A", "B"), ("A", "B"), (("birth", "2012", "2019"),), True),
         "die Zeile ist weggelassen: Zeile 3 hat diese Ohrmarke auch; Geburtstag: „2012“, dort „2019“. Zeile 3 gilt: ist "
         "dies ein anderes Tier, geben Sie ihm eine eigene Ohrmarke, auch bei seinen Nachkommen",
         "la ligne est omise\u00a0: la ligne 3 a aussi cette boucle\u00a0; Date de naissance\u00a0: «\u00a02012\u00a0», là "
         "«\u00a02019\u00a0». La ligne 3 vaut\u00a0: si celui-ci est un autre animal, donnez-lui une boucle à lui, aussi "
         "chez ses descendants"),
        (RowIsGone(False, True), "kein Tier hat es mehr als Elterntier: es wird aus dem Herdbuch gestrichen",
         "aucun animal ne l'a plus pour parent\u00a0: il est retiré du livre"),
        (RowIsGone(True, False), "es hat keine Zeile mehr, und es bleibt im Herdbuch",
         "il n'a plus de ligne\u00a0; il reste dans le livre"),
        (ParentRefused(Role.DAM, Refusal.DAM_LEFT_BEFORE, "A", 3, "F", SexSource.GIVEN, DayFact(DAY, False),
                       DayFact(DAY, True), "B", DayFact(DAY.replace(year=2002), False)),
         "Mutter A (Zeile 3) ist weggelassen: die Mutter ging an einem Tag vor der Geburt ab; abgegangen am 03.02.2001 "
         "(erschlossen); B ist am 03.02.2002 geboren; Nachkommen aus einem gelagerten Embryo brauchen 1 in der "
         "Spalte „Embryo“",
         "Mère A (ligne 3)\u00a0: omis, la mère est sortie avant le jour de la naissance\u00a0; sorti le 03/02/2001 "
         "(déduit)\u00a0; B est né le 03/02/2002\u00a0; un descendant d'un embryon conservé demande 1 dans la colonne "
         "«\u00a0embryo\u00a0»"),
    ],
)  # fmt: skip
def test_sentences(finding: Any, german: str, french: str) -> None:
    assert [sentence_of(finding, PageLanguage(language)).text for language in ("de", "fr")] == [german, french]
