"""What may be wrong of what somebody sent by a form, as the form shows it before that is filed."""
from __future__ import annotations

from typing import NamedTuple

from gudokeyi.render.page_language import PageLanguage
from gudokeyi.render.page_wording import MessageView, sentence_of
from gudokeyi.services.filing_warnings import MayBeWrong, digest_of


class WarningLine(NamedTuple):
    """Of which animal something is told, and what."""

    id: str
    sentence: MessageView


class Warned(NamedTuple):
    """The warnings of a form, and what it sends back to say that somebody saw these."""

    lines: list[WarningLine]
    seen: str = ""


NO_WARNINGS = Warned([])


def warned_of(wrong: MayBeWrong, words: PageLanguage) -> Warned:
    lines = [WarningLine(entry.id, sentence_of(entry.finding, words)) for entry in wrong.entries]
    return Warned(lines, digest_of(wrong.entries))
