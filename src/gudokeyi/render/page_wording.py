"""Messages as a page says them, in its language: what is found of a sheet, and the sentences of mistakes."""
from __future__ import annotations

import datetime
import enum
import errno
import pathlib
import re
from collections.abc import Sequence
from typing import NamedTuple

from gudokeyi.domain.findings import Entry, Finding
from gudokeyi.domain.kinds import CommandKind, Field
from gudokeyi.domain.messages import Count, MessageText
from gudokeyi.domain.wording import ENGLISH, Counted, OptionalPart, Text, Told, Wording, value_named
from gudokeyi.ingest.messages import Where
from gudokeyi.render.page_language import PageLanguage, name_of
from gudokeyi.render.texts.sentences import SENTENCES
from gudokeyi.services.facts import Fact

# numbers that count nothing
NO_COUNTS = ("line", "change", "place", "version", "known", "status", "number", "first", "last", "in", "median")
# so many of several are told
MOST_TOLD = 12
# texts that may be a day, and those that say so where they are empty
DAYS = ("after", "before", "value", "day", "until", "text", "here", "there")
FACTS = ("after", "before", "value")
# a value in a sentence of a mistake
VALUE = re.compile(r"\{(\w+)\}")


class MessageView(NamedTuple):
    """A sentence, and the language that it is in, empty for the page's own."""

    text: str
    language: str = ""


class PageWording(Wording):
    """How a page says messages."""

    def __init__(self, words: PageLanguage) -> None:
        self.words = words

    def told(self, told: Told) -> str:
        """In English a message for a terminal serves a page too, but where the page has one of its own."""
        if self.words.is_english and told.page_message is None and isinstance(told, Finding):
            return ENGLISH.told(told)
        return self.filled(self.template(told, told.page_message or told.message), told)

    def template(self, told: Told, message: Text | Counted) -> str:
        key = told.code if isinstance(told, Finding) else type(told).__name__
        if not message.value:
            return self.words.pgettext(key, message.text)
        count = value_named(told, message.value, told.values())
        number = count if isinstance(count, int) else 0
        return self.words.spaced(self.words.catalogue.npgettext(key, message.one, message.text, number))

    def part_template(self, told: Told, part: OptionalPart) -> str:
        key = told.code if isinstance(told, Finding) else type(told).__name__
        if not part.value:
            return self.words.pgettext(key, part.text)
        count = value_named(told, part.value, told.values())
        number = count if isinstance(count, int) else 0
        return self.words.spaced(self.words.catalogue.npgettext(key, part.one, part.text, number))

    # -- how the language writes values

    def thing(self, value: object) -> str:
        if isinstance(value, MessageText):
            return self.sentence(value)
        if isinstance(value, pathlib.Path):
            return value.name
        if isinstance(value, OSError):
            return reason_of(value, self.words)
        return self.words.count(value.count) if isinstance(value, Count) else super().thing(value)

    def number(self, name: str, value: int, form: str) -> str:
        return str(value) if name.rpartition("_")[2] in NO_COUNTS else self.words.count(value)

    def day(self, day: datetime.date) -> str:
        return self.words.day(day)

    def text(self, name: str, text: str) -> str:
        return self.sentence(text) if isinstance(text, MessageText) else word_of(name, text, self.words)

    def member(self, member: enum.Enum) -> str:
        return name_of(member, self.words)

    def member_with(self, member: enum.Enum, text: str) -> str:
        return self.member(member).format(self.text("text", text))

    def some(self, texts: Sequence[str], most: int) -> str:
        told = ", ".join(texts[:most])
        more = len(texts) - most
        return f"{told} {self.words.ngettext('and {} more', 'and {} more', more)}" if more > 0 else told

    def all_of(self, texts: Sequence[str]) -> str:
        return ", ".join(texts)

    def any_of(self, texts: Sequence[str]) -> str:
        return f" {self.words.gettext('or')} ".join(texts)

    def quoted(self, texts: Sequence[str]) -> str:
        return self.listed(texts)

    def listed(self, texts: Sequence[str]) -> str:
        return self.some(texts, MOST_TOLD)

    # -- the sentences of mistakes

    def sentence(self, said: MessageText) -> str:
        english, values = SENTENCES.get(said.sentence, said.sentence.value), said.values
        place = f"{type(said.sentence).__name__}.{said.sentence.name}"
        text = re.sub(r"\{(\w+):,\}", r"{\1}", self.words.catalogue.pgettext(place, english))
        return VALUE.sub(lambda name: str(self.shown(name[1], values[name[1]])), self.words.spaced(text))


REASONS = {
    errno.ENOSPC: "no room on the disk",
    errno.EDQUOT: "no more room is allowed",
    errno.EACCES: "it isn't allowed",
    errno.EPERM: "it isn't allowed",
    errno.EROFS: "the disk is only to be read",
    errno.ENOENT: "it isn't there",
    errno.EIO: "the disk has a fault",
    errno.EMFILE: "too many files are open",
    errno.ENOMEM: "there isn't enough memory",
    errno.EAGAIN: "too much goes on at once",
}


def reason_of(error: OSError, words: PageLanguage) -> str:
    """Why the system doesn't do something."""
    if error.errno in REASONS:
        return words.gettext(REASONS[error.errno])
    return words.gettext("fault {} of the system", error.errno or type(error).__name__)


# values of messages that are those of enums, by their names in a message
KINDS: dict[str, type[enum.Enum]] = {"name": Fact, "field": Field, "command": CommandKind}
VALUES = {name: {member.value for member in kind} for name, kind in KINDS.items()}


def word_of(name: str, text: str, words: PageLanguage) -> str:
    """A text that stands for something: a sex, the name of a value that changed, or none."""
    if name == "sex" and text in ("M", "F"):
        return words.sex(text)
    if name in KINDS and text in VALUES[name]:
        return name_of(KINDS[name](text), words)
    if name in DAYS and text:
        return words.written(text)
    return text or "–" * (name in FACTS)


def sentence_of(finding: Finding, words: PageLanguage) -> MessageView:
    """What is found, without what is suggested for the command line."""
    return MessageView(PageWording(words).told(finding))


def sentence_in(said: str, words: PageLanguage) -> MessageView:
    """A sentence of a mistake. One that is no more than its text is English."""
    if not isinstance(said, MessageText):
        return MessageView(said, "" if words.is_english else "en")
    return MessageView(PageWording(words).sentence(said))


def sentence_of_entry(entry: Entry, words: PageLanguage) -> MessageView:
    """What is found of an animal, behind its line and id."""
    found = sentence_of(entry.finding, words)
    if not entry.id and not entry.line:
        return found
    where = Where.LINE.said(line=entry.line, id=entry.id) if entry.line else Where.ANIMAL.said(id=entry.id)
    return found._replace(text=sentence_in(where, words).text + found.text)
