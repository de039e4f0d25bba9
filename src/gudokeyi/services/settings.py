"""What a society says of itself, with its picture: the only way to it for terminal and pages, as the database keeps
it."""
from __future__ import annotations

from gudokeyi.domain.settings import LANGUAGES as LANGUAGES, Picture as Picture, Setting as Setting
from gudokeyi.ingest.pictures import MOST_BYTES as MOST_PICTURE_BYTES, picture_read as picture_read
from gudokeyi.store.settings import (
    change_picture as change_picture, change_settings as change_settings, checked as checked,
    letters_for as letters_for, letters_said as letters_said, lines_of as lines_of, picture_of as picture_of,
    settings_of as settings_of,
)  # fmt: skip

__all__ = ["MOST_PICTURE_BYTES"]
