"""The journal that is read from its export, where this is known to have the same."""
from __future__ import annotations

import os

import pytest

from front_desk.desk import Desk
from gudokeyi.services import exported_journal
from gudokeyi.services.exported_journal import journal_of, read_exported
from gudokeyi.services.opening import book_in
from gudokeyi.store.exports import COMMANDS
from gudokeyi.store.journal import command_file


def test_known_as_long_as_it_is_the_same(society_desk: Desk, monkeypatch: pytest.MonkeyPatch) -> None:
    """Nothing is read of an export that nobody compared, or that was written since, whatever its size and time."""
    monkeypatch.setattr(exported_journal, "LEAST", 1)
    folder = society_desk.room / "book"
    export = folder / COMMANDS
    with book_in(folder) as book:
        read_exported(book)
        assert not book.has_journal_text
        journal = journal_of(book)
        assert journal == command_file(book.connection, book.journal) == export.read_bytes()
    with book_in(folder) as book:
        read_exported(book)
        assert book.has_journal_text and journal_of(book) == journal
    before = export.stat()
    export.write_bytes(journal.replace(b"birth", b"trial", 1))
    os.utime(export, ns=(before.st_atime_ns, before.st_mtime_ns))
    for _ in range(2):
        with book_in(folder) as book:
            read_exported(book)
            assert not book.has_journal_text and journal_of(book) == journal
