"""The threads that answer requests, and what waits for them. Those who change something have half of them, so that
whoever only reads waits for nobody; whoever isn't logged in has a few; passwords, each of which takes long, have three.
So nobody who isn't logged in delays somebody who is, and whoever asks for much waits behind others."""
from __future__ import annotations

import enum
import itertools
import threading
import time
from collections import OrderedDict, deque
from dataclasses import dataclass
from typing import Any

from waitress.task import ThreadedTaskDispatcher

from gudokeyi.domain.waiting import SECONDS_OF_PAGE

# so many passwords of logins are looked at at once, and beside them so many of those who are logged in; each takes
# memory, which `store/accounts.py` bounds
LOGINS_AT_ONCE, PASSWORDS_AT_ONCE = 2, 1
# so many logins wait of one network, behind which a course may sit that logs in at once, and so many in all
MOST_OF_NETWORK, MOST_LOGINS = 40, 100
# one of so many threads answers whoever isn't logged in, but for logins
ONE_OF_THREADS, LEAST_FOR_STRANGERS = 10, 2
# so many senders are kept in mind by when they had their last turn
MOST_SENDERS = 1_000


@enum.unique
class Kind(enum.Enum):
    """What a request asks for, of which each kind waits for itself."""

    READING = enum.auto()
    WRITING = enum.auto()
    # of somebody who isn't logged in
    STRANGER = enum.auto()
    LOGIN = enum.auto()
    # of somebody who is logged in, and whose own password is looked at
    PASSWORD = enum.auto()


@enum.unique
class Refusal(enum.IntEnum):
    """What isn't looked at as it comes, by its status: very many logins wait, of one network or in all."""

    MANY_OF_NETWORK = 429
    MANY = 503


@dataclass(eq=False, slots=True)
class Asked:
    """A request that waits for a thread, which then answers it. Its sender is a person, or else a network."""

    channel: Any
    request: Any
    sender: str
    place: ByTurns | None = None

    def service(self) -> None:
        try:
            self.channel.service()
        finally:
            if self.place is not None:
                self.place.end()

    def cancel(self) -> None:
        self.channel.cancel()

    def refuse(self, why: Refusal) -> None:
        self.request.refused = why


class ByTurns:
    """What waits by its senders, who take turns: next is whoever has fewest that wait, and of those whoever had a turn
    longest ago. So many are answered at once. The time of a page begins as it comes, or else with its turn."""

    def __init__(self, most: int, begins_with_turn: bool = False) -> None:
        self.most, self.begins_with_turn, self.at_work, self.lock = most, begins_with_turn, 0, threading.Lock()
        self.waiting, self.all = dict[str, deque[Asked]](), 0
        # when each sender had a turn last, by a count of all
        self.had, self.count = OrderedDict[str, int](), itertools.count(1)

    def append(self, asked: Asked) -> None:
        self.waiting.setdefault(asked.sender, deque()).append(asked)
        self.all += 1

    def __len__(self) -> int:
        """How many may be answered now."""
        return min(self.all, self.most - self.at_work)

    def next_sender(self) -> str:
        return min(self.waiting, key=lambda one: (len(self.waiting[one]), self.had.get(one, 0)))

    def first(self) -> Asked:
        return self.waiting[self.next_sender()][0]

    def begin(self) -> Asked:
        """The next, which is answered from now on."""
        with self.lock:
            self.at_work += 1
        asked = self.taken_out(self.next_sender(), is_last=False)
        self.had[asked.sender] = next(self.count)
        self.had.move_to_end(asked.sender)
        while len(self.had) > MOST_SENDERS:
            self.had.popitem(last=False)
        begins = time.monotonic() if self.begins_with_turn else asked.request.arrived
        asked.place, asked.request.until = self, begins + SECONDS_OF_PAGE
        return asked

    def end(self) -> None:
        with self.lock:
            self.at_work -= 1

    def taken_out(self, sender: str, is_last: bool) -> Asked:
        own = self.waiting[sender]
        asked = own.pop() if is_last else own.popleft()
        if not own:
            del self.waiting[sender]
        self.all -= 1
        return asked


class LoginTurns(ByTurns):
    """The logins, of which so many wait at most."""

    def refused_for(self, asked: Asked) -> Asked | None:
        """Has it wait; what is refused for that, where very many wait: it, or one of the network that has most."""
        own = len(self.waiting.get(asked.sender, ()))
        if own >= MOST_OF_NETWORK:
            asked.refuse(Refusal.MANY_OF_NETWORK)
            return asked
        self.append(asked)
        if self.all <= MOST_LOGINS:
            return None
        most = max(self.waiting, key=lambda one: len(self.waiting[one]))
        refused = self.taken_out(most if len(self.waiting[most]) > own + 1 else asked.sender, is_last=True)
        refused.refuse(Refusal.MANY)
        return refused


class Waiting:
    """The requests that wait for one of so many threads, each kind for itself."""

    def __init__(self, threads: int) -> None:
        self.logins = LoginTurns(LOGINS_AT_ONCE, begins_with_turn=True)
        for_strangers = max(LEAST_FOR_STRANGERS, threads // ONE_OF_THREADS)
        self.places: dict[Kind, ByTurns] = {
            Kind.READING: ByTurns(threads),
            Kind.WRITING: ByTurns(threads // 2),
            Kind.STRANGER: ByTurns(for_strangers, begins_with_turn=True),
            Kind.LOGIN: self.logins,
            Kind.PASSWORD: ByTurns(PASSWORDS_AT_ONCE, begins_with_turn=True),
        }

    def append(self, channel: Any) -> None:
        request = channel.requests[0]
        request.arrived = time.monotonic()
        head = request.head
        asked: Asked | None = Asked(channel, request, head.sender)
        kind = head.kind
        if kind is Kind.LOGIN:
            # one that is refused anyway is told so at once
            kind = Kind.STRANGER
            if not request.error and not head.wait:
                asked = self.logins.refused_for(Asked(channel, request, head.sender))
        if asked:
            self.places[kind].append(asked)

    def __len__(self) -> int:
        """How many may be answered now."""
        return sum(len(place) for place in self.places.values())

    def popleft(self) -> Asked:
        """Of those that may be answered now the one that came first."""
        ready = [place for place in self.places.values() if len(place)]
        return min(ready, key=lambda place: float(place.first().request.arrived)).begin()


def add_task(dispatcher: Any, channel: Any) -> None:
    # nobody else waits while it is looked for who sends it
    channel.requests[0].find_head()
    ThreadedTaskDispatcher.add_task(dispatcher, channel)


def threads(count: int) -> Any:
    """So many, with what waits for them."""
    dispatcher: Any = type("Dispatcher", (ThreadedTaskDispatcher,), {"add_task": add_task})()
    dispatcher.queue = Waiting(count)
    dispatcher.set_thread_count(count)
    return dispatcher
