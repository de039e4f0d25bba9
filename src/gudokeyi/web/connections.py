"""The connections of browsers: how much and how slowly each may send and take, and what the head of a request says of
who sends it."""
from __future__ import annotations

import contextlib
import copy
import socket
import time
from collections import Counter
from collections.abc import Callable
from dataclasses import dataclass, replace
from typing import Any

from flask import Flask, g, request
from waitress.channel import HTTPChannel
from waitress.parser import HTTPRequestParser
from waitress.task import ErrorTask, WSGITask
from waitress.utilities import RequestEntityTooLarge
from werkzeug.datastructures import LanguageAccept
from werkzeug.http import parse_accept_header

from gudokeyi.domain.messages import Mistake
from gudokeyi.domain.waiting import waiting
from gudokeyi.render.page_language import PageLanguage
from gudokeyi.web.access import (
    ARRIVED, LOOK_AT_OWN_PASSWORD, LOG_IN, MOST_FORM_BYTES, READS, REFUSED_AS_IT_CAME, WAIT_AS_IT_CAME, WAITS_UNTIL,
    most_of_file, the_logins, the_person,
)  # fmt: skip
from gudokeyi.web.files import CONNECTION
from gudokeyi.web.language import language_liked
from gudokeyi.web.request_threads import Kind

# How many connections there are, and how long they may take. What is idle goes first where there are many, and somebody
# who sends many files at once, or takes none of many answers, has few.

MOST_CONNECTIONS, MANY_CONNECTIONS, MOST_HEADER_BYTES = 400, 300, 32 << 10
# so many files one person sends at once, and so many all do; so many answers one person takes slowly at once
MOST_FILES_OF_PERSON, MOST_FILES, MOST_ANSWERS_OF_PERSON = 3, 60, 12
# whoever has just come has so long, in seconds, to send a request, however many there are
SECONDS_AT_FIRST = 0.25
# so long a connection may be idle, and the head of a request may take, in seconds
SECONDS_IDLE, SECONDS_FOR_HEAD = 60, 10
# so much longer than its bytes need at the least rate a body may take, or the taking of an answer
SECONDS_BESIDE, LEAST_RATE = 20, 8 << 10
# so long is thrown away what somebody still sends of a body that is refused: where it isn't received the answer is lost
SECONDS_REFUSED = 2
# what waitress is told of them
SETTINGS = {
    "connection_limit": MOST_CONNECTIONS, "max_request_header_size": MOST_HEADER_BYTES, "cleanup_interval": 1,
    "channel_timeout": SECONDS_IDLE, "asyncore_use_poll": True,
}  # fmt: skip


def end_slow(channels: dict[int, Any]) -> None:
    """Ends the connections that take too long, or are too many."""
    now = time.monotonic()
    make_room(channels)
    taking = Counter[str]()
    for one in sorted(channels.values(), key=lambda one: float(one.since)):
        sender = one.answers.sender
        if one.connected and one.total_outbufs_len and one.answers.is_known:
            taking[sender] += 1
        has_many = one.total_outbufs_len and taking[sender] > MOST_ANSWERS_OF_PERSON
        if one.connected and (has_many or is_too_slow(one, now)):
            # whoever takes nothing isn't told of it
            end(one)


def make_room(channels: dict[int, Any]) -> None:
    """Where there are many connections, those are ended that have been idle, or at a request that isn't whole, for
    longest; or that take no answer, and aren't of somebody who is logged in."""
    now, there = time.monotonic(), [one for one in channels.values() if not one.will_close]
    if len(there) < MANY_CONNECTIONS:
        return
    may_go = [one for one in there if is_unfinished(one) and now - one.since > SECONDS_AT_FIRST]
    for one in sorted(may_go, key=lambda one: float(one.since))[: len(there) - MANY_CONNECTIONS + 1]:
        end(one)


def end(channel: Any) -> None:
    """Has the server close a connection as it next looks at it. It is asking now for what there is of each: of one that
    was closed meanwhile it would take what it hears for that of a new one, which has its number, and close that."""
    channel.will_close = True
    with contextlib.suppress(OSError):
        channel.socket.shutdown(socket.SHUT_RDWR)


def is_unfinished(channel: Any) -> bool:
    """Is nothing done for it, nor a file sent?"""
    if channel.requests or channel.total_outbufs_len and channel.answers.is_known:
        return False
    return not (channel.request and channel.request.head.has_file)


def is_too_slow(channel: Any, now: float) -> bool:
    if channel.refused:
        return bool(now - channel.refused > SECONDS_REFUSED)
    if channel.total_outbufs_len:
        # what is to be taken is seen by what was sent since it was seen first
        if channel.taking is None:
            channel.taking, channel.sent = now, 0
        return bool(now - channel.taking > SECONDS_BESIDE + channel.sent / LEAST_RATE)
    channel.taking = None
    if channel.requests:
        return False
    if channel.request and channel.request.headers_finished:
        return bool(now - channel.since > SECONDS_BESIDE + channel.got / LEAST_RATE)
    is_fresh = channel.request is not None or not channel.answered
    return bool(now - channel.since > (SECONDS_FOR_HEAD if is_fresh else SECONDS_IDLE))


# What the head of a request says: who sends it, what of its body is received, and for what it waits.

# what is a little too large for a page is told to somebody who is known, in their language; the rest isn't received
MOST_TOLD = 1 << 20
# what counts only once it arrived
SENT_TO_END = ("/book.sqlite",)
# what WSGI wants to be told beside of a request
SOMEWHERE = {"SERVER_NAME": "localhost", "SERVER_PORT": "80", "wsgi.url_scheme": "http"}
# the headers that say who sends it, by their names there
OF_SENDER = {"COOKIE": "HTTP_COOKIE", "X_FORWARDED_FOR": "HTTP_X_FORWARDED_FOR"}


@dataclass(frozen=True)
class Head:
    """Of which kind a request is, and who sends it: a person by the name, else from which network. The bytes of a body
    are received at most; a login's network has so many seconds to wait for what was wrong before."""

    kind: Kind = Kind.STRANGER
    sender: str = ""
    most_bytes: int = MOST_FORM_BYTES
    wait: int = 0
    # does somebody send more than a form has?
    has_file: bool = False

    @property
    def is_known(self) -> bool:
        """Is whoever sends it logged in?"""
        return self.kind not in (Kind.STRANGER, Kind.LOGIN)


def head_of(app: Flask, parser: Any, peer: str) -> Head:
    """That of a request that comes from somewhere. A file's bytes are received of somebody alone who may drop it."""
    told = {name: parser.headers[header] for header, name in OF_SENDER.items() if header in parser.headers}
    method, address = parser.command.upper(), "/" + parser.path.lstrip("/")
    asked = {"REMOTE_ADDR": peer, "REQUEST_METHOD": method, "PATH_INFO": address}
    # nobody is answered meanwhile
    with app.request_context(SOMEWHERE | told | asked), waiting(time.monotonic()):
        logins = the_logins()
        # accounts that can't be read are told by the page
        with contextlib.suppress(Mistake):
            g.person = logins.person()
        person, endpoint = the_person(), request.endpoint or ""
        if endpoint == LOG_IN:
            network = logins.network()
            return Head(Kind.LOGIN, network, wait=logins.wait_of(network))
        if person is None:
            return Head(Kind.STRANGER, logins.network())
        kind = Kind.PASSWORD if endpoint in LOOK_AT_OWN_PASSWORD else Kind.WRITING
        most, has_file = MOST_TOLD + most_of_file(endpoint), parser.chunked or parser.content_length > MOST_FORM_BYTES
        return Head(Kind.READING if method in READS else kind, person.name, most, has_file=has_file)


def are_many_files(sender: str, channels: dict[int, Any]) -> bool:
    """Does somebody send many files already, or do all together?"""
    senders = [one.request.head.sender for one in channels.values() if one.request and one.request.head.has_file]
    return senders.count(sender) >= MOST_FILES_OF_PERSON or len(senders) >= MOST_FILES


def bounded_channel(app: Callable[[], Flask]) -> Any:
    """The class of the connections of the app of the moment. Of a body no more is received than whoever sends it may
    send; a request for a file ends its connection, which it has, so that it is seen whether that arrived."""

    def parse_header(self: Any, header: bytes) -> None:
        HTTPRequestParser.parse_header(self, header)
        if self.content_length or self.chunked:
            head = head_of(app(), self, self.peer)
            if head.has_file and are_many_files(head.sender, self.others):
                self.error, self.completed, self.expect_continue = MANY_FILES, True, False
            self.head, self.has_head = head, True
            # others have these bounds too; waitress refuses what is as long as its bound
            self.adj = copy.copy(self.adj)
            self.adj.max_request_body_size = self.head.most_bytes + 1
        if self.path in SENT_TO_END:
            self.headers["CONNECTION"] = "close"

    def find_head(self: Any) -> None:
        # of many that a browser sends at once without bodies it is asked for as each comes to be answered
        if not self.has_head and not self.error:
            self.head, self.has_head = head_of(app(), self, self.peer), True

    def get_environment(self: Any) -> dict[str, Any]:
        environ: dict[str, Any] = WSGITask.get_environment(self)
        said = self.request
        environ |= {WAITS_UNTIL: said.until, ARRIVED: said.arrived, WAIT_AS_IT_CAME: said.head.wait}
        environ[REFUSED_AS_IT_CAME] = said.refused
        if environ["PATH_INFO"] in SENT_TO_END:
            environ[CONNECTION] = self.channel.socket
        return environ

    # waitress has no types from which a class may be made
    said: dict[str, Any] = {
        "head": Head(), "has_head": False, "find_head": find_head, "peer": "", "others": {}, "arrived": 0.0,
        "until": 0.0, "refused": 0,
    }  # fmt: skip
    parser: Any = type("BoundedParser", (HTTPRequestParser,), {"parse_header": parse_header, **said})
    task: Any = type("ConnectedTask", (WSGITask,), {"get_environment": get_environment})
    own = {"parser_class": parser, "task_class": task, "error_task_class": refusing_task()}
    return type("BoundedChannel", (HTTPChannel,), {**own, **timed_channel(), **refusing_channel()})


# What is told of a body that isn't taken: no page can be made of that.


@dataclass(frozen=True)
class Refused:
    """An error as waitress answers it."""

    status: str
    text: str

    def to_response(self) -> tuple[str, list[tuple[str, str]], bytes]:
        return self.status, [("Content-Type", "text/plain; charset=utf-8")], self.text.encode()

    def told(self, accepted: str) -> Refused:
        """The same in the language that a browser likes best, as its header says it."""
        language = language_liked(parse_accept_header(accepted, LanguageAccept))
        return replace(self, text=PageLanguage(language).gettext(self.text))


NO_ROOM = Refused(
    "507 Insufficient Storage", "There is no room on the server's disk: nothing is changed. Make room there."
)
TOO_LARGE = Refused(
    "413 Request Entity Too Large",
    "This is too large, or you aren't logged in any more: nothing is changed. Log in, and send a smaller file.",
)
MANY_FILES = Refused(
    "429 Too Many Requests",
    "Many files are being sent at this moment: nothing is changed. "
    "Wait until yours are there, then send this one again.",
)


def refusing_task() -> Any:
    """The class of an answer to what isn't taken."""

    def service(self: Any) -> None:
        self.channel.refuses = True
        if isinstance(self.request.error, RequestEntityTooLarge):
            self.request.error = TOO_LARGE
        if isinstance(self.request.error, Refused):
            self.request.error = self.request.error.told(self.request.headers.get("ACCEPT_LANGUAGE", ""))
        ErrorTask.service(self)

    return type("RefusingTask", (ErrorTask,), {"service": service})


def refusing_channel() -> dict[str, Any]:
    """What of a connection ends it a while behind such an answer; nothing that comes meanwhile is a request."""

    def ends(self: Any) -> bool:
        return bool(self.is_ending)

    def set_ending(self: Any, is_ending: bool) -> None:
        if is_ending and self.refuses:
            self.refused = time.monotonic()
        else:
            self.is_ending = is_ending

    return {"refuses": False, "refused": 0.0, "is_ending": False, "close_when_flushed": property(ends, set_ending)}


def of_peer(parser: Callable[[Any], Any], peer: str, others: dict[int, Any]) -> Callable[[Any], Any]:
    """What reads requests that come from somewhere, beside those of others."""

    def made(adj: Any) -> Any:
        reads = parser(adj)
        reads.peer, reads.others = peer, others
        return reads

    return made


def timed_channel() -> dict[str, Any]:
    """What of a connection says how long it takes: since when it is idle, or a request comes, with its bytes; and since
    when an answer is taken, with those."""

    def begin(self: Any, server: Any, *given: Any, **named: Any) -> None:
        self.since, self.got, self.sent, self.taking, self.answered = time.monotonic(), 0, 0, None, False
        make_room(server.active_channels)
        HTTPChannel.__init__(self, server, *given, **named)
        self.parser_class = of_peer(self.parser_class, str(self.addr[0]), server.active_channels)

    def received(self: Any, data: bytes) -> Any:
        if self.refused:
            return True
        if self.request is None and not self.requests:
            self.since, self.got = time.monotonic(), 0
        self.got += len(data)
        try:
            return HTTPChannel.received(self, data)
        except OSError:
            # what is received stands on a disk, which is full
            with self.requests_lock:
                self.request.error, self.request.completed = NO_ROOM, True
                self.requests.append(self.request)
                self.request = None
                if len(self.requests) == 1:
                    self.server.add_task(self)
            return True

    def send(self: Any, data: bytes, do_close: bool = True) -> Any:
        count = HTTPChannel.send(self, data, do_close)
        self.sent += count or 0
        return count

    def service(self: Any) -> None:
        self.answers = self.requests[0].head if self.requests else self.answers
        HTTPChannel.service(self)
        self.since, self.got, self.answered = time.monotonic(), 0, True

    return {"__init__": begin, "received": received, "send": send, "service": service, "answers": Head()}


def bound(server: Any, app: Callable[[], Flask]) -> None:
    """Has a server of waitress these bounds."""
    server.channel_class = bounded_channel(app)
    server.maintenance = lambda _: end_slow(dict(server.active_channels))
