"""The changes of a book's history as pages show them, with the options with which each was made."""
from __future__ import annotations

import contextlib
from collections.abc import Iterable, Iterator
from dataclasses import dataclass
from typing import NamedTuple

from gudokeyi.domain.changes import Change, Option
from gudokeyi.domain.findings import What
from gudokeyi.domain.kinds import ChangeKind, ExitReason, Field
from gudokeyi.domain.messages import Mistake
from gudokeyi.domain.options import IMPORT
from gudokeyi.domain.own_columns import OwnKind
from gudokeyi.render.change_messages import message_of
from gudokeyi.render.page_language import PageLanguage, name_of
from gudokeyi.render.page_wording import MessageView, PageWording, sentence_of, word_of
from gudokeyi.services.facts import Fact, Facts
from gudokeyi.services.history import (
    FILED_BY_HAND, AnimalChange, Filed, animals_changed, filed_by, first_entries, history_of,
)  # fmt: skip
from gudokeyi.services.imports import is_unknown, read_given
from gudokeyi.services.opening import Book
from gudokeyi.web.views.own_columns import own_said
from gudokeyi.web.views.findings import MOST_SHOWN, Group, groups_of

# A change of a book's history in a line: what it did, of which animal, and whether the register refused it.

# what is counted of a change, in this order behind its animals; what may be wrong the change itself shows
COUNTED = {
    "new": ("{} new", "{} new"),
    What.ADDED: ("{} added as a parent", "{} added as parents"),
    What.CHANGED: ("{} changed", "{} changed"),
    What.GONE: ("{} gone", "{} gone"),
    What.LEFT_OUT: ("{} left out", "{} left out"),
    What.INFERRED: ("{} inferred", "{} inferred"),
    "refused": ("{} refused", "{} refused"),
}
REFUSED = "The register refused it, and nothing changed: {}."


@dataclass(frozen=True, slots=True)
class ChangeLine:
    """A change in a line. `what` is what it did, `id` the animal of a command, `counts` how much of each kind, and
    `refused` says that it was refused, and why; each is empty where there is none."""

    number: int
    time: str
    login: str
    what: str
    id: str
    counts: str
    refused: str


def lines_of(book: Book, changes: Iterable[Change], words: PageLanguage) -> list[ChangeLine]:
    return [line_of(book, change, words) for change in changes]


def line_of(book: Book, change: Change, words: PageLanguage) -> ChangeLine:
    id, found = filed_by(book, change) if change.kind in FILED_BY_HAND else Filed("", None)
    refused = words.gettext(REFUSED, PageWording(words).told(found.why())) if found else ""
    counts = "" if change.kind in FILED_BY_HAND else counts_of(change, words)
    what = what_of(change, words)
    return ChangeLine(change.number, words.time(change.time), change.login, what, id, counts, refused)


def counts_of(change: Change, words: PageLanguage) -> str:
    """All animals, and behind them how many are new and what became of how many others."""
    counts = change.counts
    parts = [words.ngettext(*texts, counts[what]) for what, texts in COUNTED.items() if counts.get(what)]
    if not counts.get("animals"):
        return ", ".join(parts)
    animals = words.ngettext("{} animal", "{} animals", counts["animals"])
    return f"{animals}{words.colon} {', '.join(parts)}" if parts else animals


def what_of(change: Change, words: PageLanguage) -> str:
    text, named = message_of(change)
    return words.gettext(text, named)


# The options with which a change was made, in words: the history has them as a terminal would.

# what the fields of the forms are called
FIELDS = {
    "id": "Id", "name": "Name", "sex": "Sex", "sire": "Sire", "dam": "Dam", "owner": "Owner", "to": "New owner",
    "from": "Owner before", "embryo": "from a stored embryo", "breed": IMPORT["breed"].label,
    "country": IMPORT["country"].label, "castrated": "castrated", "born": "Birth day", "exit": "Exit",
    "exit-day": "Day of the exit", "reason": "reason of the exit",
}  # fmt: skip
DAYS = {
    ChangeKind.BIRTH: "Birth day", ChangeKind.LITTER: "Birth day", ChangeKind.EXIT: "Day of the exit",
    ChangeKind.TRANSFER: "Day of the change",
}  # fmt: skip


class Given(NamedTuple):
    """What was said, and its value, empty for what is only chosen."""

    what: str
    value: str = ""


def given_of(change: Change, words: PageLanguage) -> list[Given]:
    """All that was said, in the order in which it was."""
    options = () if change.kind is ChangeKind.TAKEN_BACK else change.options
    return [given for option in options for given in said_of(change, option, words)]


def said_of(change: Change, option: Option, words: PageLanguage) -> Iterator[Given]:
    name = option.option.removeprefix("--")
    if name == "columns":
        yield from columns_of(option, words)
    elif change.kind in (*FILED_BY_HAND, ChangeKind.LITTER):
        label = DAYS.get(change.kind, name) if name == "day" else FIELDS.get(name, name)
        yield Given(words.pgettext(f"field {name}", label), value_of(name, option.word, words))
    else:
        label = IMPORT[name].label if name in IMPORT else name
        yield Given(words.gettext(label), value_of(name, option.word, words))


def columns_of(option: Option, words: PageLanguage) -> Iterator[Given]:
    """Which column each field is read from."""
    with contextlib.suppress(Mistake):
        for field, title in read_given([option.word]).items():
            yield Given(name_of(Field(field), words), title or words.gettext("– no column –"))
        return
    yield Given(words.gettext("Columns"), option.word)


def value_of(name: str, text: str, words: PageLanguage) -> str:
    if name == "sex":
        return word_of(name, text.upper(), words)
    if name in ("sire", "dam") and is_unknown(text):
        return words.gettext("unknown")
    title, _, kind = text.rpartition("=")
    if name == "own" and kind in [*OwnKind]:
        return f"{title} ({name_of(OwnKind(kind), words)})"
    if name == "reason" and text in [*ExitReason]:
        return name_of(ExitReason(text), words)
    return word_of(name, text, words)


# The changes of a book's history as pages show them.


class Value(NamedTuple):
    """A fact that a change changed; empty where there is none."""

    what: str
    before: str
    after: str


class Difference(NamedTuple):
    """What a change made of an animal."""

    id: str
    is_new: bool
    is_gone: bool
    values: list[Value]


def differences_of(book: Book, number: int, words: PageLanguage, most: int) -> tuple[int, list[Difference]]:
    """How many animals a change changed, and the first of them."""
    count, changed = animals_changed(book, number, most)
    return count, [difference(one, words) for one in changed]


def difference(one: AnimalChange, words: PageLanguage) -> Difference:
    values = [
        Value(name_of(fact, words), *(value_said(facts, fact, words) for facts in (one.before, one.after)))
        for fact in one.changed()
    ]
    values += [
        Value(
            said.title or words.gettext("Note"), own_said(said.kind, said.before, words),
            own_said(said.kind, said.after, words),
        )
        for said in one.others
    ]
    return Difference(one.id, one.before is None, one.after is None, values)


def value_said(facts: Facts | None, fact: Fact, words: PageLanguage) -> str:
    return str(PageWording(words).shown("", facts[fact])) if facts else ""


def told_of_change(book: Book, number: int, words: PageLanguage) -> list[Group]:
    """What a change told, by kind: of each kind of finding the first."""
    totals, entries = first_entries(book, number, MOST_SHOWN)
    return groups_of(entries, words, totals)


class OwnChange(NamedTuple):
    """A change that changed an animal, or told of it."""

    line: ChangeLine
    difference: Difference | None
    told: list[MessageView]


def own_changes(book: Book, id: str, words: PageLanguage) -> list[OwnChange]:
    """What the history has of one animal, the newest first."""
    return [
        OwnChange(
            line_of(book, change, words), difference(did, words) if did else None,
            [sentence_of(entry.finding, words) for entry in told],
        )
        for change, did, told in reversed(history_of(book, id))
    ]  # fmt: skip
