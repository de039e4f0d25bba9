"""German and French, as gettext has them: each language's `messages.po` translates the texts that stand in the code in
English. An installed package has them compiled; in a clone Babel compiles them, and they are kept in the caches of who
asks."""
from __future__ import annotations

import contextlib
import datetime
import functools
import gettext
import hashlib
import io
import pathlib

from gudokeyi.domain.messages import Mistake
from gudokeyi.services.cache import cache, cached_file

HERE = pathlib.Path(__file__).resolve().parent
PO, MO = "LC_MESSAGES/messages.po", "LC_MESSAGES/messages.mo"


class Catalogue:
    """The texts of a language, as gettext finds them. For a context that the catalogue doesn't have there is the text
    without one."""

    def __init__(self, language: str) -> None:
        self.found = translations(language)

    def gettext(self, text: str) -> str:
        return self.found.gettext(text)

    def pgettext(self, context: str, text: str) -> str:
        found = self.found.pgettext(context, text)
        return self.found.gettext(text) if found == text else found

    def ngettext(self, one: str, several: str, count: int) -> str:
        return self.found.ngettext(one, several, count)

    def npgettext(self, context: str, one: str, several: str, count: int) -> str:
        found = self.found.npgettext(context, one, several, count)
        return self.found.ngettext(one, several, count) if found in (one, several) else found


@functools.cache
def catalogue(language: str) -> Catalogue:
    return Catalogue(language)


def translations(language: str) -> gettext.NullTranslations:
    """None for English, which the code has."""
    if language == "en":
        return gettext.NullTranslations()
    made = HERE / language / MO
    return gettext.GNUTranslations(io.BytesIO(made.read_bytes() if made.exists() else cached(language)))


def cached(language: str) -> bytes:
    """Those of a clone, which are compiled once."""
    written = (HERE / language / PO).read_bytes()
    kept = cached_file(f"{hashlib.sha256(written).hexdigest()}.mo")
    with contextlib.suppress(OSError):
        return kept.read_bytes()
    made = compiled(written)
    cache(kept, made)
    return made


def compiled(written: bytes) -> bytes:
    """A catalogue as gettext reads it."""
    try:
        from babel.messages.mofile import write_mo
        from babel.messages.pofile import read_po
    except ImportError:
        raise Mistake(
            "texts in German and French need Babel in a clone: as root `apt install python3-babel` on Debian, or `pip "
            "install Babel` in an environment that is active"
        ) from None
    made, catalogue = io.BytesIO(), read_po(io.BytesIO(written))
    # Babel writes a moment into it: the same one, so that a catalogue made twice has the same bytes
    catalogue.creation_date = datetime.datetime.fromtimestamp(0, datetime.timezone.utc)
    write_mo(made, catalogue)
    return made.getvalue()
