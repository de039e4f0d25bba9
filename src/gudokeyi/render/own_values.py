"""Values of the society's own columns, as a language writes them."""
from __future__ import annotations

from gudokeyi.domain.own_columns import NO, YES, OwnKind
from gudokeyi.render.languages import Language


def own_said(kind: OwnKind, text: str, language: Language) -> str:
    """A value as it is shown; empty where there is none."""
    if kind is OwnKind.DAY and text:
        return language.day(text)
    if kind is OwnKind.NUMBER:
        return language.decimal(text)
    if kind is OwnKind.YES_OR_NO:
        return {YES: language.gettext("yes"), NO: language.pgettext("answer", "no")}.get(text, text)
    return text
