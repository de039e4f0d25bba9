"""The form by which anything of an animal is corrected: what the book has of it as texts, and what was written
otherwise."""
from __future__ import annotations

from collections.abc import Mapping
from dataclasses import dataclass

from gudokeyi.domain.animals import SocietyRecord
from gudokeyi.domain.changes import Change, Option
from gudokeyi.domain.kinds import ExitReason, Role
from gudokeyi.domain.messages import Mistake
from gudokeyi.domain.provenance import Period
from gudokeyi.domain.requests import WebFault
from gudokeyi.render.page_language import PageLanguage
from gudokeyi.services.correcting import (
    ANY_DAY, Corrected, Correction, Exit, OwnerSince, Span, correct, corrected, last_change_of, owners_in,
)  # fmt: skip
from gudokeyi.services.filing import clean, parent_named
from gudokeyi.services.opening import Book
from gudokeyi.services.option_values import day, day_or_period
from gudokeyi.web.forms import ANYWAY, change_once, parents_of, token_with
from gudokeyi.web.served_book import ServedBook

# the fields of the form beside those of owners, of whom there are more or fewer
FIELDS = ("id", "name", "sex", "castrated", "born", "sire", "dam", "embryo", "exit", "exit-day")
OWNER, SINCE = "owner-{}", "since-{}"
# so many owners can be added at a time, and so many an animal has at most in a form
MORE_OWNERS, MOST_OWNERS = 2, 40
# what the book had as the form was shown, and the change that had made it so
SHOWN, LOOKED_AT = "shown-{}", "last-change"
# what the field of the exit has where it left and nobody said why
LEFT = "left"
UNKNOWN_PARENT, UNKNOWN, NONE = "0", "unknown", "none"
YES, NO = "yes", "no"


def texts_of(book: Book, known: SocietyRecord, words: PageLanguage) -> dict[str, str]:
    """What the book has of an animal, as the fields of the form have it."""
    record = book.records[known.registration_number]
    has_left = record.left is not None or known.exit.day_is_unknown
    found = {
        "id": known.id, "name": known.name, "sex": known.registration_number[6], "castrated": "1" * known.castrated,
        "born": "" if known.birth.is_inferred else words.day(record.born), **parents_of(book, known),
        "embryo": "1" * record.embryo, "exit": (known.exit_reason or LEFT) * has_left,
        "exit-day": words.day(record.left) if record.left else "",
    }  # fmt: skip
    periods = {"born": known.birth.period, "exit-day": known.exit.period}
    found |= {name: period_text(period, words) for name, period in periods.items() if period}
    for at, one in enumerate(owners_in(book, known)):
        found |= {OWNER.format(at): one.owner, SINCE.format(at): words.day(one.since)}
    return found


def period_text(period: Period, words: PageLanguage) -> str:
    """A month or a year as it can be written again."""
    year, dash, month = period.text.partition("-")
    return f"{month}.{year}" if dash and not words.is_english else period.text


def owners_shown(given: Mapping[str, str]) -> list[int]:
    """The places of the owners that a form shows: those that are written, and some to be added."""
    written = [at for at in range(MOST_OWNERS) if given.get(OWNER.format(at)) or given.get(SINCE.format(at))]
    return [*range(min(len(written) + MORE_OWNERS, MOST_OWNERS))]


@dataclass(frozen=True)
class CorrectionForm:
    """A form with what somebody wrote, the animal that it is about, and the token that it was sent with."""

    given: Mapping[str, str]
    known: SocietyRecord
    sent: str

    @property
    def token(self) -> str:
        """Sent again as it was it is the same form; written otherwise it is another."""
        return token_with(self.sent, [f"{name}={self.text(name)}" for name in self.names()])

    def names(self) -> list[str]:
        return [*FIELDS, *(name.format(at) for at in range(MOST_OWNERS) for name in (OWNER, SINCE))]

    def text(self, name: str) -> str:
        return clean(self.given.get(name, ""))

    def says(self, *names: str) -> bool:
        """Was any of these written otherwise than the form showed it?"""
        return any(self.text(name) != clean(self.given.get(SHOWN.format(name), "")) for name in names)

    def written(self) -> dict[str, str]:
        """The fields that were written otherwise."""
        return {name: self.given.get(name, "") for name in self.names() if self.says(name)}

    def refuse_older(self, book: Book) -> None:
        """A mistake where somebody changed the animal since the form was shown."""
        if self.given.get(LOOKED_AT) != str(last_change_of(book, self.known)):
            raise Mistake(WebFault.ANIMAL_CHANGED.said(id=self.known.id))

    def correction(self, book: Book) -> Correction:
        """What was written otherwise than the form showed it; a mistake where it can't be read."""
        sire, dam = (
            (parent_named(book, self.text(role), may_be_file=False) or "") if self.says(role) else None for role in Role
        )
        sex = self.text("sex")
        return Correction(
            self.text("id") if self.says("id") else None, self.text("name") if self.says("name") else None,
            sex if self.says("sex") and sex in ("M", "F") else None, self.is_set("castrated"),
            self.day_written("born") if self.says("born") else None, sire, dam, self.is_set("embryo"), self.owners(),
            self.exit(), self.reason(),
        )  # fmt: skip

    def is_set(self, name: str) -> bool | None:
        return self.text(name) == "1" if self.says(name) else None

    def day_written(self, name: str) -> Span:
        return day_or_period(self.text(name)) if self.text(name) else ANY_DAY

    def owners(self) -> tuple[OwnerSince, ...] | None:
        names = [name.format(at) for at in range(MOST_OWNERS) for name in (OWNER, SINCE)]
        if not self.says(*names):
            return None
        texts = ((self.text(OWNER.format(at)), self.text(SINCE.format(at))) for at in range(MOST_OWNERS))
        return tuple(OwnerSince(owner, day(since) if since else None) for owner, since in texts if owner or since)

    def exit(self) -> Exit | None:
        had, has = self.given.get(SHOWN.format("exit"), ""), self.text("exit")
        if not self.says("exit-day") and bool(had) == bool(has):
            return None
        if not has and self.says("exit-day") and self.text("exit-day"):
            raise Mistake(WebFault.DAY_WITHOUT_EXIT.said(day=self.text("exit-day")))
        span = self.day_written("exit-day")
        return Exit(bool(has), None if span == ANY_DAY else span)

    def reason(self) -> str | None:
        """One of the reasons; empty where it left for none that is known."""
        has = self.text("exit")
        return None if not self.says("exit") else has if has in [*ExitReason] else ""

    def options(self) -> tuple[Option, ...]:
        """What was written, as the history has the options of the word."""
        found = [Option(f"--{name}", self.option_word(name)) for name in FIELDS if self.says(name)]
        names = [name.format(at) for at in range(MOST_OWNERS) for name in (OWNER, SINCE)]
        for at in range(MOST_OWNERS) if self.says(*names) else ():
            owner, since = self.text(OWNER.format(at)), self.text(SINCE.format(at))
            found += [Option("--owner", f"{owner}={since}" if since else owner)] * bool(owner)
        return tuple(found)

    def option_word(self, name: str) -> str:
        text = self.text(name)
        if name in ("castrated", "embryo"):
            return YES if text else NO
        if name in (*Role, "born", "exit", "exit-day"):
            otherwise = {"born": UNKNOWN, "exit": NONE, "exit-day": UNKNOWN}
            return text or otherwise.get(name, UNKNOWN_PARENT)
        return text

    def corrected(self, book: Book) -> Corrected:
        self.refuse_older(book)
        return corrected(book, self.known, self.correction(book))


def fields_shown(book: Book, known: SocietyRecord, words: PageLanguage, written: Mapping[str, str]) -> dict[str, str]:
    """The fields of a form that shows an animal as the book has it now, but for what somebody wrote; with what they
    show."""
    now = texts_of(book, known, words)
    shown = {SHOWN.format(name): text for name, text in now.items()}
    return {**now, **written, **shown, LOOKED_AT: str(last_change_of(book, known))}


def send_form(served: ServedBook, form: CorrectionForm) -> Change:
    """The change by which the animal is corrected."""
    with served.opened() as before:
        # which animals may be meant by a wrong word takes long to find: nobody waits for that
        if before is not None:
            form.correction(before)

    def make(book: Book) -> Change:
        return correct(book, served.program, form.corrected(book), form.options(), form.token, form.text(ANYWAY))

    change = change_once(served, form.token, make)
    assert change is not None
    return change
