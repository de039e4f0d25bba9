"""Folders of somebody's own on this computer: the one of the book, which is remembered, and those with a book."""
from __future__ import annotations

import contextlib
import os
import pathlib
import re

from gudokeyi.domain.messages import Mistake
from gudokeyi.domain.requests import WebFault
from gudokeyi.services.opening import DATABASE, has_book

# the book's folder in one that has other files
BOOK = "book"
# books are looked for so deep below the home folder, in so many folders, and so many are shown
DEEPEST, MOST_LOOKED_AT, MOST_SHOWN = 3, 3_000, 12


def own_folder(variable: str, otherwise: str) -> pathlib.Path:
    """A folder that a desktop names by a variable, or its usual place in the home folder."""
    given = os.environ.get(variable)
    return pathlib.Path(given) if given else pathlib.Path.home() / otherwise


def memory() -> pathlib.Path:
    return own_folder("XDG_CONFIG_HOME", ".config") / "gudokeyi/folder"


def remembered() -> pathlib.Path | None:
    with contextlib.suppress(OSError, UnicodeDecodeError):
        text = memory().read_text(encoding="utf-8").rstrip("\n")
        return pathlib.Path(text) if text else None
    return None


def remember(folder: pathlib.Path) -> None:
    memory().parent.mkdir(parents=True, exist_ok=True)
    memory().write_text(f"{folder}\n", encoding="utf-8")


def documents() -> pathlib.Path:
    """The folder in which a desktop keeps documents."""
    home = pathlib.Path.home()
    with contextlib.suppress(OSError):
        text = (own_folder("XDG_CONFIG_HOME", ".config") / "user-dirs.dirs").read_text(encoding="utf-8")
        found = re.search(r'^XDG_DOCUMENTS_DIR="(.+)"$', text, re.MULTILINE)
        if found:
            return pathlib.Path(found[1].replace("$HOME", str(home)))
    return home


def books_found() -> list[pathlib.Path]:
    """Folders with a book below the home folder."""
    home, found, looked_at = pathlib.Path.home(), list[pathlib.Path](), 0
    for folder, folders, names in os.walk(home):
        looked_at += 1
        if DATABASE in names:
            found.append(pathlib.Path(folder))
        if looked_at >= MOST_LOOKED_AT or len(found) >= MOST_SHOWN:
            break
        is_deep = len(pathlib.Path(folder).relative_to(home).parts) >= DEEPEST
        folders[:] = [] if is_deep or DATABASE in names else sorted(one for one in folders if not one.startswith("."))
    return found


def chosen(text: str) -> pathlib.Path:
    """The book's folder that somebody means, made where it isn't there; a mistake where it can't be used."""
    if not text.strip():
        raise Mistake(WebFault.FOLDER_MISSING.said())
    folder = pathlib.Path.home() / pathlib.Path(text.strip()).expanduser()
    try:
        if folder.exists() and not folder.is_dir():
            raise Mistake(WebFault.FOLDER_IS_FILE.said(folder=str(folder)))
        if folder.is_dir() and not has_book(folder) and any(folder.iterdir()):
            folder /= BOOK
        folder.mkdir(parents=True, exist_ok=True)
        if not os.access(folder, os.W_OK | os.X_OK):
            raise PermissionError(13, os.strerror(13))
    except (OSError, RuntimeError) as error:
        told = getattr(error, "strerror", None) or str(error)
        raise Mistake(WebFault.FOLDER_NOT_MADE.said(folder=str(folder), error=told)) from None
    return folder
