"""What a society may say of itself, each with the name by which a book stores it, with its picture; and the languages
of pages."""
from __future__ import annotations

import enum
from typing import NamedTuple

LANGUAGES = ("en", "de", "fr")


class Setting(enum.StrEnum):
    """What a society says of itself, and what its new numbers and its pages begin with."""

    # the society's
    NAME = "name"
    ADDRESS = "address"
    # what the breed is called whose letters new numbers begin with
    BREED_NAME = "breed-name"
    # with which new numbers begin
    BREED = "breed"
    COUNTRY = "country"
    # words for an unknown parent, in the next sheets and in what is filed by hand
    UNKNOWN = "unknown"
    # of the desk in a browser
    LANGUAGE = "language"


# what kinds of files a picture may be
PNG, JPEG = "image/png", "image/jpeg"


class Picture(NamedTuple):
    """The society's picture: its kind, its width and height in points, and its file."""

    media_type: str
    width: int
    height: int
    file: bytes
