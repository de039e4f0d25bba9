"""Threads beside this one: a program that runs and a database that is read leave Python free meanwhile."""
from __future__ import annotations

import functools
import itertools
import threading
from collections.abc import Callable, Iterable, Iterator, Sequence
from typing import Generic, TypeVar

Value = TypeVar("Value")


class Background(Generic[Value]):
    """A value that another thread finds out from now on. Nothing of it is left where nobody asks for it."""

    def __init__(self, find: Callable[[], Value]) -> None:
        self.find = find
        self.found: list[Value] = []
        self.error: BaseException | None = None
        self.thread = threading.Thread(target=self.run, daemon=True)
        self.thread.start()

    def run(self) -> None:
        try:
            self.found.append(self.find())
        except BaseException as error:  # raised where the value is asked for
            self.error = error

    def wait(self) -> None:
        self.thread.join()

    def value(self) -> Value:
        """It is waited for; what went wrong is raised here."""
        self.wait()
        if self.error:
            raise self.error
        return self.found[0]


# finds pieces at the next ones of some places, each with its place
Finder = Callable[[Iterator[int]], Iterable[tuple[int, bytes]]]


class Pieces:
    """The pieces of a text, which other threads find one by one, for whoever goes through them meanwhile. Each finder
    answers the pieces at some places, as many as it comes to before the others do."""

    def __init__(self, head: bytes, count: int, finders: Sequence[Finder]) -> None:
        self.head, self.count = head, count
        self.found: dict[int, bytes] = {}
        self.has_failed = False
        self.more = threading.Condition()
        # the next place is taken at once, whichever thread asks
        self.places = iter(range(count))
        self.finding = [Background(functools.partial(self.gather, find)) for find in finders]

    def gather(self, find: Finder) -> None:
        try:
            for at, piece in find(self.places):
                with self.more:
                    self.found[at] = piece
                    self.more.notify_all()
        except BaseException:
            with self.more:
                self.has_failed = True
                self.more.notify_all()
            raise

    def __iter__(self) -> Iterator[bytes]:
        """The head, and each piece as soon as it is found; where one isn't, what went wrong is raised."""
        return itertools.chain([self.head], map(self.piece, range(self.count)))

    def piece(self, at: int) -> bytes:
        with self.more:
            self.more.wait_for(lambda: at in self.found or self.has_failed)
        if self.has_failed:
            for one in self.finding:
                one.value()
        return self.found[at]

    def wait(self) -> None:
        for one in self.finding:
            one.wait()

    def value(self) -> bytes:
        """The whole text."""
        return b"".join(self)
