"""The overview of a book, kept as long as little is filed: what was filed since is counted alone."""
from __future__ import annotations

import collections
import threading

from gudokeyi.domain.changes import Change
from gudokeyi.store.book import Book
from gudokeyi.store.counts import Overview, difference, numbers_filed, overview_of
from gudokeyi.store.history import changed_one_by_one

MOST_KEPT = 8
# of more commands it is quicker to look at the whole book
MOST_COMMANDS = 1_000


class Overviews:
    """The overviews of a book's last states: that of a book in which little was filed since comes from one of them."""

    def __init__(self) -> None:
        self.lock = threading.Lock()
        self.last = collections.deque[tuple[Change, Overview]](maxlen=MOST_KEPT)

    def of(self, book: Book) -> Overview:
        if book.change is None:
            return Overview()
        with self.lock:
            from_others = (later(book, *one) for one in reversed(self.last))
            overview = next((one for one in from_others if one), None) or overview_of(book)
            self.last.append((book.change, overview))
        return overview


def later(book: Book, then: Change, overview: Overview) -> Overview | None:
    """That of a book from one of its earlier states; none where that isn't one, or more was changed since than some
    animals one by one."""
    now = book.change
    if now is None or now.edition != then.edition or not changed_one_by_one(book.connection, then):
        return None
    if not 0 <= now.length - then.length <= MOST_COMMANDS:
        return None
    numbers = numbers_filed(book, now.edition, then.length + 1, now.length)
    differences = [difference(book, number, then) for number in numbers]
    return Overview(*map(sum, zip((overview.animals, overview.living, overview.females, overview.units), *differences)))
