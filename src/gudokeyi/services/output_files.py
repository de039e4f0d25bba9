"""Writes the files that somebody asks for: never onto a sheet that was imported or a file of the book; and what lies
where a book writes a file of its own."""
from __future__ import annotations

import pathlib

from gudokeyi.domain.messages import Mistake
from gudokeyi.services.written_files import check_path, is_one_of, is_there, write_all
from gudokeyi.store.book import Book
from gudokeyi.store.database import ACCOUNTS, companions, path_of
from gudokeyi.store.exports import IDS, ID_TITLES, LAST_BACKUP, NAMES, REPORT, REPORT_TITLES
from gudokeyi.store.files import cant_be_written, digest_of, has_titles, place_of, put
from gudokeyi.store.history import files_taken
from gudokeyi.store.legacy.files import OLD, OLD_NAMES
from gudokeyi.store.messages import BookFault

# Writes the files that somebody asks for: never onto a sheet that was taken or a file of the book, and onto another one
# only where that is wished.


def write_outs(book: Book, texts: dict[pathlib.Path, bytes], force: bool) -> None:
    """Writes all of these files or, on a mistake, none of them."""
    for path in texts:
        check(book, path, force)
    write_all(texts, force)


def write_into(book: Book, folder: pathlib.Path, texts: dict[str, bytes], force: bool) -> None:
    """Writes files into a folder, which is made where it isn't there; on a mistake neither is."""
    is_new = not folder.exists()
    try:
        folder.mkdir(exist_ok=True)
    except FileExistsError:
        raise Mistake(f"{folder} is a file: name a folder") from None
    except FileNotFoundError:
        raise Mistake(f"{folder} can't be made: there is no folder {folder.parent}: make it first") from None
    except OSError as error:
        raise cant_be_written(folder, error) from None
    try:
        write_outs(book, {folder / name: text for name, text in texts.items()}, force)
    except Mistake:
        if is_new:
            folder.rmdir()
        raise


def write_page(book: Book, path: pathlib.Path, text: bytes) -> None:
    """Writes a page that has a name of its own in the book's folder, in place of an earlier one."""
    try:
        put(path, text)
    except OSError as error:
        raise cant_be_written(path, error) from None


def check(book: Book, path: pathlib.Path, force: bool) -> None:
    """A mistake where a file mustn't be written."""
    check_path(path)
    if is_of_book(book, path):
        raise Mistake(f"{path} is a file of the book, and is never written over: name another file")
    if not path.exists():
        # a link to nothing is there too
        if path.is_symlink() and not force:
            raise is_there(path)
        return
    if is_taken_sheet(book, path):
        raise Mistake(f"{path} is a sheet that was taken, and is never written over: name another file")
    if not force:
        raise is_there(path)


def is_of_book(book: Book, path: pathlib.Path) -> bool:
    """Is it, by its name or by a link, one of the book's own files, one of its accounts, or one that stays of an
    earlier version?"""
    old, place = book.folder / OLD, path.resolve()
    if place == old.resolve() or old.resolve() in place.parents:
        return True
    return is_one_of(path, [*names_of_book(book.folder), *(old.iterdir() if old.is_dir() else [])])


def names_of_book(folder: pathlib.Path) -> list[pathlib.Path]:
    """The places in a folder at which a book and its accounts have files."""
    others = [folder / name for name in (*NAMES, *OLD_NAMES, LAST_BACKUP)]
    return [*companions(path_of(folder)), *companions(folder / ACCOUNTS), *others]


def is_taken_sheet(book: Book, path: pathlib.Path) -> bool:
    """Was it taken: by its place, or by what stands in it?"""
    paths, digests = files_taken(book.connection)
    try:
        return place_of(path) in paths or digest_of(path.read_bytes()) in digests
    except OSError as error:
        raise cant_be_written(path, error) from None


# What lies where a book writes a file of its own: a sheet that is to be taken, or a file that was there before the
# book. Neither is written over.

# a command file makes a folder one of version 0.11
TITLES = {IDS: ID_TITLES, REPORT: REPORT_TITLES}


def check_place(book: Book, path: pathlib.Path) -> None:
    """A mistake where the book that a file is taken into would write over it, or over another one."""
    if is_one_of(path, names_of_book(book.folder)):
        raise Mistake(BookFault.SHEET_IN_PLACE.said(path=path, folder=book.folder))
    if not book.is_there:
        check_new(book.folder)


def check_new(folder: pathlib.Path) -> None:
    """A mistake where a book that is begun in a folder would write over a file that none wrote."""
    for name, titles in TITLES.items():
        path = folder / name
        if path.is_file() and not has_titles(path, titles):
            raise Mistake(BookFault.FILE_IN_PLACE.said(path=path, folder=folder))
