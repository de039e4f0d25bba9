"""Published seals whose journal was written anew: the book doesn't begin any more with what was sealed."""
from __future__ import annotations

import functools
import sqlite3
from collections.abc import Iterable, Mapping, Sequence

from gudokeyi.domain.changes import Change
from gudokeyi.domain.messages import MessageText
from gudokeyi.domain.seals import PublishedSeal, SealFault
from gudokeyi.services.seals import journal_of
from gudokeyi.store.book import Book
from gudokeyi.store.history import all_changes
from gudokeyi.store.journal import Journal
from gudokeyi.store.published_seals import common_length

# what is told of each of them
WrittenAnew = Mapping[PublishedSeal, MessageText]


def written_anew(book: Book, published: Iterable[PublishedSeal]) -> WrittenAnew:
    """Since when, by which change, and how much of what was sealed the book has still. Of the others nothing."""
    kept = {one: common_length(book.connection, journal_of(one), book.journal) for one in published}
    anew = [one for one, length in kept.items() if length < one.seal.steps]
    changes = all_changes(book.connection) if anew else []
    return {one: told_of(one, kept[one], first_without(book.connection, journal_of(one), changes)) for one in anew}


def told_of(published: PublishedSeal, kept: int, since: Change) -> MessageText:
    return SealFault.WRITTEN_ANEW.said(
        day=since.time.astimezone().date(), change=since.number, edition=published.edition, kept=kept,
        commands=published.seal.steps,
    )  # fmt: skip


def first_without(connection: sqlite3.Connection, journal: Journal, changes: Sequence[Change]) -> Change:
    """The change since which no journal begins with this one."""

    @functools.cache
    def begins(edition: int) -> bool:
        """Does an edition that is long enough begin with it?"""
        return common_length(connection, journal, Journal(edition, journal.length)) == journal.length

    def has_it(change: Change) -> bool:
        return change.length >= journal.length and begins(change.edition)

    last = max((at for at, change in enumerate(changes) if has_it(change)), default=-1)
    return changes[last + 1]
