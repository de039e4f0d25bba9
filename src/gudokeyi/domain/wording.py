"""Messages as templates beside what they tell, and how a terminal words them in English. A page words the same messages
in its own language: `render/page_wording.py`."""
from __future__ import annotations

import datetime
import enum
import functools
import re
from collections.abc import Mapping, Sequence
from typing import ClassVar, NamedTuple

from gudokeyi.domain.messages import AnyOf, Some, Worded, some_of
from gudokeyi.domain.refusals import MatingFault, Refusal

# Messages in English, with places for values as `{parent}`, and for parts of them, which may be left out.


class Text(NamedTuple):
    """A message. In another language it may be another one where the value named behind it is one."""

    text: str
    value: str = ""

    @property
    def one(self) -> str:
        return self.text


class Counted(NamedTuple):
    """A message that is another one where a value of its is one: the name of this value stands behind both."""

    one: str
    text: str
    value: str


class OptionalPart(NamedTuple):
    """A part of a message that may lack: it is left out where a value that it has a place for is empty, or where that
    of the name `when` isn't true. With `value` it is `one` where that value is one."""

    text: str
    when: str = ""
    one: str = ""
    value: str = ""


class Told:
    """What a message tells: a frozen dataclass, of whose fields the message has places, as `{line}`, or `{cells_line}`
    for a field of a field. It has places for its parts too, as `{maybe_line}`: each language puts them where it
    likes."""

    parts: ClassVar[Mapping[str, OptionalPart]] = {}
    message: ClassVar[Text | Counted]
    # on a page, where the words for a terminal don't serve
    page_message: ClassVar[Text | Counted | None] = None

    def values(self) -> Mapping[str, object]:
        """What the message tells beside the fields, or in place of some."""
        return {}

    def words(self) -> str:
        """The message in English, as a terminal has it."""
        return ENGLISH.told(self)


# Values of messages that are made of several, or stand for something.


class Word(enum.Enum):
    """A word of the book, or one for what it doesn't have."""

    MALE = "male"
    FEMALE = "female"
    UNKNOWN = "unknown"
    NONE = "none"
    YES = "yes"
    # how the words for an exit begin where its day isn't known
    NO_DAY = "day unknown"


# the sexes as numbers have them
SEXES = {"M": Word.MALE, "F": Word.FEMALE}


class AllOf(NamedTuple):
    """All that are meant."""

    texts: Sequence[object]


class Joined(NamedTuple):
    """Several, with a sign between them."""

    texts: Sequence[object]
    sign: str = ", "


class Quoted(NamedTuple):
    """Texts of a sheet."""

    texts: Sequence[str]


class WithText(NamedTuple):
    """A member of an enum whose words have a place for a text."""

    member: enum.Enum
    text: str


# How messages are filled.

PLACE = re.compile(r"\{(\w+)(?::([^}]*))?\}")
# numbers that aren't told where they are zero
NONE_IF_ZERO = ("line", "more", "of", "in")


class Template(NamedTuple):
    """A text with places, and their names and formats."""

    text: str
    places: tuple[tuple[str, str], ...]


@functools.cache
def parsed(template: str) -> Template:
    return Template(PLACE.sub("{}", template), tuple((place[1], place[2] or "") for place in PLACE.finditer(template)))


def names_in(template: str) -> set[str]:
    """The values and parts that a template has places for."""
    return {name for name, _ in parsed(template).places}


def is_nothing(name: str, value: object) -> bool:
    """Is an empty value, or a zero, none that is told?"""
    return not isinstance(value, int) or isinstance(value, bool) or name.rpartition("_")[2] in NONE_IF_ZERO


LACKS = object()


def value_named(told: object, name: str, values: Mapping[str, object]) -> object:
    """The value of a name: one of those beside the fields, a field, or a field of a field."""
    found = values[name] if name in values else getattr(told, name, LACKS)
    if found is not LACKS:
        return found
    ends = (at for at, letter in enumerate(name) if letter == "_" and hasattr(told, name[:at]))
    end = next(ends)
    part = getattr(told, name[:end])
    return None if part is None else value_named(part, name[end + 1 :], part.values() if isinstance(part, Told) else {})


class Wording:
    """How messages are said: in English, as a terminal says them."""

    def told(self, told: Told) -> str:
        return self.filled(self.template(told, told.message), told)

    def template(self, told: Told, message: Text | Counted) -> str:
        """That of a message for a number, if it counts."""
        if isinstance(message, Counted) and value_named(told, message.value, told.values()) == 1:
            return message.one
        return message.text

    def part_template(self, told: Told, part: OptionalPart) -> str:
        """That of a part for a number, if it counts."""
        is_one = part.value and value_named(told, part.value, told.values()) == 1
        return part.one if is_one else part.text

    def filled(self, template: str, told: Told) -> str:
        """A template with what stands at its places: parts, and values in words."""
        text, places = parsed(template)
        values, parts = told.values(), told.parts
        return text.format(
            *[
                self.part(told, parts[name], values) if name in parts
                else self.shown(name, value_named(told, name, values), form)
                for name, form in places
            ]
        )  # fmt: skip

    def part(self, told: Told, part: OptionalPart, values: Mapping[str, object]) -> str:
        """A part in words, empty where it is left out."""
        if part.when and not value_named(told, part.when, values):
            return ""
        text, places = parsed(self.part_template(told, part))
        found = [(name, value_named(told, name, values), form) for name, form in places]
        if any(not value and is_nothing(name, value) for name, value, _ in found):
            return ""
        said = [self.shown(name, value, form) for name, value, form in found]
        return text.format(*said) if all(said) else ""

    def shown(self, name: str, value: object, form: str = "") -> str:
        """A value in words."""
        if type(value) is str:
            return self.text(name, value)
        if isinstance(value, enum.Enum):
            return self.member(value)
        if isinstance(value, str):
            return self.text(name, value)
        if value is None:
            return ""
        return self.number(name, value, form) if isinstance(value, int) else self.thing(value)

    def thing(self, value: object) -> str:
        """A value that is made of several, or has parts."""
        if isinstance(value, Told):
            return self.told(value)
        if isinstance(value, datetime.date):
            return self.day(value)
        if isinstance(value, WithText):
            return self.member_with(value.member, value.text)
        if isinstance(value, Some):
            return self.some([self.one(one) for one in value.texts], value.most)
        return self.several(value)

    def several(self, value: object) -> str:
        if isinstance(value, AllOf):
            return self.all_of([self.one(one) for one in value.texts])
        if isinstance(value, AnyOf):
            return self.any_of([self.one(one) for one in value.texts])
        if isinstance(value, Quoted):
            return self.quoted(value.texts)
        if isinstance(value, Joined):
            return value.sign.join(self.one(one) for one in value.texts)
        assert isinstance(value, tuple)
        return self.listed([self.one(one) for one in value])

    def one(self, value: object) -> str:
        """One of several values."""
        return str(self.shown("", value))

    # -- how a language writes them

    def number(self, name: str, value: int, form: str) -> str:
        return format(value, form)

    def day(self, day: datetime.date) -> str:
        return day.isoformat()

    def text(self, name: str, text: str) -> str:
        return text

    def member(self, member: enum.Enum) -> str:
        return member.words() if isinstance(member, Refusal | MatingFault | Worded) else str(member.value)

    def member_with(self, member: enum.Enum, text: str) -> str:
        return self.member(member).format(text=text)

    def some(self, texts: Sequence[str], most: int) -> str:
        return some_of(texts, most)

    def all_of(self, texts: Sequence[str]) -> str:
        return " and ".join(texts)

    def any_of(self, texts: Sequence[str]) -> str:
        return " or ".join(texts)

    def quoted(self, texts: Sequence[str]) -> str:
        return ", ".join(f"'{text}'" for text in texts)

    def listed(self, texts: Sequence[str]) -> str:
        return ", ".join(texts)


ENGLISH = Wording()
