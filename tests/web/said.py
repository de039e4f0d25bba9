"""What pages say in English, German and French; a sentence of a mistake is empty in English where it is that of a
terminal."""
from __future__ import annotations

import enum
import io

from babel.messages.pofile import read_po

from gudokeyi.domain.messages import Message
from gudokeyi.domain.settings import LANGUAGES
from gudokeyi.locale import HERE, PO, catalogue
from gudokeyi.render.texts import sentences

CATALOGUES = [catalogue(language) for language in LANGUAGES]
Three = tuple[str, str, str]


def translated(language: str) -> dict[tuple[str, str], str]:
    """What the catalogue of a language has for each text, by its context, also for one of several."""
    found: dict[tuple[str, str], str] = {}
    for one in read_po(io.BytesIO((HERE / language / PO).read_bytes())):
        ids, strings = ([one.id], [one.string]) if isinstance(one.id, str) else (one.id, one.string)
        found |= {(one.context or "", id): string for id, string in zip(ids, strings) if id}
    return found


GERMAN, FRENCH = translated("de"), translated("fr")
# all that pages say, by its English text; what is said otherwise at some place has other contexts beside
MESSAGES: dict[tuple[str, str], Three] = {key: (key[1], GERMAN[key], FRENCH[key]) for key in GERMAN}


def in_each(text: str, context: str = "") -> Three:
    return MESSAGES[context, text]


def place_of(member: enum.Enum) -> str:
    return f"{type(member).__name__}.{member.name}"


def sentence_of(message: Message) -> Three:
    english = sentences.SENTENCES.get(message, "")
    _, german, french = (one.pgettext(place_of(message), english or message.value) for one in CATALOGUES)
    return english, german, french


class Sentences(dict[Message, Three]):
    def __missing__(self, message: Message) -> Three:
        return self.setdefault(message, sentence_of(message))


SENTENCES = Sentences()
