"""Seals as pages show them: a line of a published one, and what the program says of a certificate that it accepts."""
from __future__ import annotations

from typing import NamedTuple

from gudokeyi.domain.messages import MessageText
from gudokeyi.domain.seals import SHOWN_DIGITS, PublishedSeal
from gudokeyi.render.page_language import PageLanguage, name_of
from gudokeyi.render.page_wording import MessageView, sentence_in
from gudokeyi.services.facts import Fact
from gudokeyi.services.seals import CheckedCertificate, CheckedRecord

# so many records are shown
MOST_SHOWN = 500
# where a number has its sex
SEX_AT = 6


class SealLine(NamedTuple):
    """A published seal in a row of a table, and what is told where its journal was written anew since."""

    day: str
    edition: str
    steps: str
    animals: str
    parts: list[str]
    anew: MessageView | None


def line_of(published: PublishedSeal, anew: MessageText | None, words: PageLanguage) -> SealLine:
    seal = published.seal
    return SealLine(
        words.day(published.day), words.count(published.edition), words.count(seal.steps), words.count(seal.animals),
        parts_of(seal.digits), sentence_in(anew, words) if anew else None,
    )  # fmt: skip


def parts_of(digits: str) -> list[str]:
    """A seal in parts that are compared one by one."""
    return [digits[at : at + SHOWN_DIGITS] for at in range(0, len(digits), SHOWN_DIGITS)]


class RecordLine(NamedTuple):
    """A checked record in a row of a table. What isn't known or there is empty."""

    number: str
    sex: str
    born: str
    sire: str
    dam: str
    owner: str
    since: str
    left: str


class CheckedView(NamedTuple):
    """What the page of a check shows: the animal's own record stands above those of its ancestors; `more` says how many
    of these aren't shown."""

    own: RecordLine
    percent: str
    fraction: str
    steps: str
    animals: str
    parts: list[str]
    records: list[RecordLine]
    more: int


def view_of(checked: CheckedCertificate, seal: str, words: PageLanguage) -> CheckedView:
    """The youngest of the ancestors first."""
    own, *last_first = checked.records[::-1]
    return CheckedView(
        record_line(own, words), words.percent(checked.coefficient.percent), checked.coefficient.fraction,
        words.count(checked.steps), words.count(checked.animals), parts_of(seal),
        [record_line(one, words) for one in last_first[:MOST_SHOWN]], max(0, len(last_first) - MOST_SHOWN),
    )  # fmt: skip


def record_line(record: CheckedRecord, words: PageLanguage) -> RecordLine:
    born = words.day(record.born) + f" ({name_of(Fact.EMBRYO, words)})" * record.is_embryo
    return RecordLine(
        record.registration_number, words.sex(record.registration_number[SEX_AT]), born, record.sire,
        record.dam, str(record.owner_code), words.day(record.owner_since), words.day(record.left),
    )  # fmt: skip
