"""Messages as data: which one it is, with its values. A terminal shows the English text, and a page says it in its own
language. A mistake ends the work, with messages that say what to do."""
from __future__ import annotations

import enum
import shlex
import sys
from collections.abc import Sequence
from dataclasses import dataclass
from typing import NamedTuple

from gudokeyi.domain.refusals import MatingFault, Refusal

# Mistakes, which end the work: each is told in sentences that say what to do.

# how the front desk was called, for commands that a sentence shows
CALLED = shlex.quote(sys.argv[0])
# so many ids are named in a message
MOST_NAMED = 12
# so many where something is told in passing
MOST_IN_PASSING = 9


def counted(count: int, noun: str) -> str:
    """So many of what a noun names, as `1 row` or `2 rows`."""
    return f"{count} {noun}" if count == 1 else f"{count} {noun}s"


def some_of(texts: Sequence[str], most: int = MOST_NAMED) -> str:
    """The first of them, and how many more there are."""
    more = f" and {len(texts) - most} more" if len(texts) > most else ""
    return ", ".join(texts[:most]) + more


def number_and_some(ids: Sequence[str]) -> str:
    """How many there are, and the first of them."""
    return f"{len(ids)} ({some_of(ids, MOST_IN_PASSING)})"


class Mistake(Exception):
    """What ends the work: one sentence or several, each with what to do. Nothing is written then."""

    def __init__(self, *sentences: str) -> None:
        super().__init__(*sentences)
        self.sentences = sentences


# Sentences as data: which one it is, with its values. A terminal shows the English text, and a page says it in its own
# language.


class Message(enum.Enum):
    """Each part of the front desk has its sentences in an enum: the English text with places for values."""

    def said(self, **values: object) -> MessageText:
        return MessageText(self, values)


class MessageText(str):
    """The English text of a sentence with its values, which are kept."""

    sentence: Message
    values: dict[str, object]

    def __new__(cls, sentence: Message, values: dict[str, object]) -> MessageText:
        shown = {name: text_of(value) for name, value in values.items()}
        said = super().__new__(cls, str(sentence.value).format(**shown))
        said.sentence, said.values = sentence, values
        return said

    def __reduce__(self) -> tuple[type[MessageText], tuple[Message, dict[str, object]]]:
        return MessageText, (self.sentence, self.values)


class Worded(enum.Enum):
    """An enum whose members are told in words of their own."""

    def words(self) -> str:
        raise NotImplementedError


class Some(NamedTuple):
    """Names, of which the first are told, and how many more there are."""

    texts: Sequence[object]
    most: int = MOST_NAMED

    def __str__(self) -> str:
        return some_of([*map(str, self.texts)], self.most)


class AnyOf(NamedTuple):
    """Names of which one is meant."""

    texts: Sequence[object]

    def __str__(self) -> str:
        return " or ".join(map(str, self.texts))


@dataclass(frozen=True, slots=True)
class Count:
    """So many of what a noun names, of which a page says the number."""

    count: int
    noun: str

    def __str__(self) -> str:
        return counted(self.count, self.noun)


def why(refusal: Refusal | MatingFault) -> dict[str, object]:
    """The values of a sentence that tells of a refusal: in words, and its number."""
    return {"refusal": refusal, "number": int(refusal)}


def text_of(value: object) -> object:
    """A value in a terminal's sentence. Numbers are written as the sentence asks for."""
    if isinstance(value, Refusal | MatingFault):
        return value.words()
    if isinstance(value, int):
        return value
    return (value.strerror if isinstance(value, OSError) else None) or str(value)
