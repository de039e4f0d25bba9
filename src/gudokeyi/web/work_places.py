"""Places for heavy work: each kind has some, with a limit of time, and whoever asked for least has one first. So a
sheet that is taken waits for no plan, and nobody for somebody who asks for much."""
from __future__ import annotations

import contextlib
import itertools
import threading
from collections import Counter
from collections.abc import Callable, Iterator
from concurrent.futures import ThreadPoolExecutor
from dataclasses import dataclass, field
from typing import Generic, TypeVar

from gudokeyi.domain.messages import Mistake
from gudokeyi.domain.requests import WebFault
from gudokeyi.domain.waiting import seconds_left
from gudokeyi.services.opening import busy

# the kinds: what changes the book, what looks at something that was dropped, what is said of the breed, and the process
# of a plan of matings
TAKING, LOOKING, BREED, PLANNING = "taking", "looking", "breed", "plan beside"


@dataclass(frozen=True)
class Bounds:
    """So many of a kind work at once, each for so many seconds at most, and so little they take from others."""

    places: int
    seconds: int
    niceness: int


BOUNDS = {
    TAKING: Bounds(1, 3600, 2), LOOKING: Bounds(2, 1800, 3), BREED: Bounds(1, 900, 10), PLANNING: Bounds(1, 1800, 10),
}  # fmt: skip
OTHERS = Bounds(1, 900, 10)
# so many of a kind one person may have asked for that aren't over
MOST_OF_PERSON = 6

Work = TypeVar("Work")


@dataclass
class Waiting(Generic[Work]):
    person: str
    work: Work
    do: Callable[[Work], object]


@dataclass
class Places(Generic[Work]):
    """The places of a kind, and who waits for one."""

    bounds: Bounds
    waiting: list[Waiting[Work]] = field(default_factory=list)
    at_work: Counter[str] = field(default_factory=Counter)
    # when each person had a place last, by a count of all
    had: dict[str, int] = field(default_factory=dict)
    count: itertools.count[int] = field(default_factory=lambda: itertools.count(1))
    lock: threading.Lock = field(default_factory=threading.Lock)

    def __post_init__(self) -> None:
        self.executor = ThreadPoolExecutor(self.bounds.places)

    def add(self, person: str, work: Work, do: Callable[[Work], object]) -> None:
        one = Waiting(person, work, do)
        with self.lock:
            self.waiting.append(one)
        try:
            self.executor.submit(self.do_next)
        except RuntimeError:
            with self.lock:
                self.waiting.remove(one)
            raise

    def asked_by(self, person: str) -> int:
        """How many of a person wait or work."""
        with self.lock:
            return self.at_work[person] + sum(one.person == person for one in self.waiting)

    def do_next(self) -> None:
        """Does the work of whoever has fewest places and had one longest ago. One place is left to others: whoever has
        all but that goes on behind what they have at work."""
        while one := self.begun():
            # what came of it is told where it was asked for
            with contextlib.suppress(Exception):
                one.do(one.work)
            with self.lock:
                self.at_work[one.person] -= 1

    def begun(self) -> Waiting[Work] | None:
        most = max(1, self.bounds.places - 1)
        with self.lock:
            may = [one for one in self.waiting if self.at_work[one.person] < most]
            if not may:
                return None
            one = min(may, key=lambda one: (self.at_work[one.person], self.had.get(one.person, 0)))
            self.waiting.remove(one)
            self.at_work[one.person] += 1
            self.had[one.person] = next(self.count)
            return one

    def end(self) -> None:
        self.executor.shutdown(wait=True)


@dataclass(eq=False)
class Turn:
    """That of somebody who waits at a page."""

    person: str


class Turns:
    """One place for answers that pages wait for: each is made by whoever waits, and nothing goes on for somebody who
    waits no more."""

    def __init__(self) -> None:
        self.changed, self.is_taken = threading.Condition(), False
        self.waiting = list[Turn]()
        # when each person had a turn last, by a count of all
        self.had, self.count = dict[str, int](), itertools.count(1)

    @contextlib.contextmanager
    def one(self, person: str) -> Iterator[None]:
        """A turn; a mistake where it doesn't come in the time of a page, or where the person waits for many."""
        with self.changed:
            self.wait(Turn(person))
            self.is_taken, self.had[person] = True, next(self.count)
        try:
            yield
        finally:
            with self.changed:
                self.is_taken = False
                self.changed.notify_all()

    def wait(self, turn: Turn) -> None:
        """Waits for it; the lock is held."""
        if sum(one.person == turn.person for one in self.waiting) >= MOST_OF_PERSON:
            raise Mistake(WebFault.MUCH_WORK.said())
        self.waiting.append(turn)
        try:
            if not self.changed.wait_for(lambda: not self.is_taken and self.first() is turn, seconds_left()):
                raise busy()
        finally:
            self.waiting.remove(turn)

    def first(self) -> Turn:
        """That of whoever had one longest ago."""
        return min(self.waiting, key=lambda one: self.had.get(one.person, 0))


# so many pages of one person are made at once, and so many more of them wait for that: a browser asks for six
MOST_PAGES, MOST_PAGES_WAITING = 3, 9


class PagesOfPeople:
    """The pages that people read: whoever asks for very many at once keeps nobody else waiting for all of them."""

    def __init__(self) -> None:
        self.changed = threading.Condition()
        self.at_work, self.waiting = Counter[str](), Counter[str]()

    def begin(self, person: str) -> None:
        """Waits until few of the person's are made; a mistake where that is for longer than a page waits, or where many
        wait already."""
        with self.changed:
            if self.waiting[person] >= MOST_PAGES_WAITING:
                raise Mistake(WebFault.MUCH_WORK.said())
            self.waiting[person] += 1
            try:
                if not self.changed.wait_for(lambda: self.at_work[person] < MOST_PAGES, seconds_left()):
                    raise Mistake(WebFault.MUCH_WORK.said())
                self.at_work[person] += 1
            finally:
                self.waiting[person] -= 1

    def end(self, person: str) -> None:
        with self.changed:
            self.at_work[person] -= 1
            self.changed.notify_all()
