"""The seal that a printed certificate shows: its day, its ends and its code."""
from __future__ import annotations

import io
from typing import NamedTuple

from gudokeyi.domain.seals import PublishedSeal
from gudokeyi.render.languages import Language

# so many modules around a code are blank, as readers want it
BLANK = 4


class SealView(NamedTuple):
    """What stands of a published seal: the sentence with its day, its first and last digits, and its QR code as a
    picture."""

    told: str
    ends: str
    code: str


def seal_view(published: PublishedSeal, language: Language) -> SealView:
    told = language.gettext("Seal of the book, published on {}", language.day(published.day))
    return SealView(told, " … ".join(published.seal.ends), code_of(published.seal.digits, told))


def code_of(digits: str, title: str) -> str:
    """A QR code with the digits of a seal and nothing else."""
    # a certificate under no seal waits for none
    import segno

    code, made = segno.make(digits, error="m", micro=False), io.BytesIO()
    code.save(
        made,
        kind="svg",
        border=BLANK,
        title=title,
        xmldecl=False,
        nl=False,
        omitsize=True,
        svgclass=None,
        lineclass=None,
    )
    return made.getvalue().decode()
