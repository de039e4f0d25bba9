"""Serves the book on this machine to one person until it is ended, or to several people, each with an account."""
from __future__ import annotations

import contextlib
import fcntl
import gc
import logging
import os
import pathlib
import secrets
import shlex
import shutil
import signal
import socket
import sys
import tempfile
import webbrowser
from collections.abc import Callable, Iterator
from dataclasses import replace
from typing import Any, Protocol

from flask import Flask
from waitress import create_server

from gudokeyi.domain.messages import CALLED, Mistake
from gudokeyi.domain.requests import WebFault
from gudokeyi.process import give_memory_back, with_cells_of_any_length, with_short_turns
from gudokeyi.services.accounts import Accounts
from gudokeyi.services.book_session import BookSession
from gudokeyi.services.opening import take_over, up_to_date
from gudokeyi.web.access import LinkLogins
from gudokeyi.web.addresses import ListenAddress, server_address
from gudokeyi.web.app import web_app
from gudokeyi.web.connections import SETTINGS, bound as bounded
from gudokeyi.web.verification import keep_seeing
from gudokeyi.web.files import Uploads
from gudokeyi.web.logins import AccessLog, AccountLogins, Throttle
from gudokeyi.web.request_threads import threads as threads_of
from gudokeyi.web.served_book import ServedBook
from gudokeyi.web.workers import PAUSE, Exports, Jobs

# Serves the desk on this machine, until it is ended.

ADDRESS = "127.0.0.1"
THREADS = 8
# what a page makes goes with it: it is looked for as Python does by itself, not as rarely as in a call that ends soon
LOOKED_FOR = (700, 10, 10)
# so long answers that are under way at the end are waited for
SECONDS_FOR_ANSWERS = 10


def open_in_browser(
    folder: pathlib.Path, program: BookSession, port: int, read_only: bool, opens_browser: bool
) -> None:
    """The desk of one person, in a browser that comes by a secret link."""
    otherwise = "name another one, or leave out --port"
    with bound(ADDRESS, port, otherwise) as listening, served_book_of(folder, program, read_only) as served:
        logins = LinkLogins(secrets.token_urlsafe(24), listening.getsockname()[1], read_only)
        link = f"http://{ADDRESS}:{logins.port}/enter/{logins.secret}"

        def begin() -> None:
            print(f"{link}\nThe desk is open. Open this link in a browser; Ctrl-C ends it.", flush=True)
            if opens_browser and not webbrowser.open(link):
                print("No browser could be opened here: open the link in one yourself.", flush=True)

        app = web_app(served, logins)
        keep_seeing(served)
        answer(lambda: app, listening, THREADS, begin, served)


@contextlib.contextmanager
def served_book_of(
    folder: pathlib.Path, program: BookSession, read_only: bool, pause: float = PAUSE
) -> Iterator[ServedBook]:
    """The desk of a folder, whose book is brought up to date."""
    with room() as path:
        served = ServedBook(folder, program, read_only, Uploads(path), Jobs(), Exports(folder, pause))
        if not read_only:
            take_over(folder, program)
            up_to_date(folder)
        yield served


class Ends(Protocol):
    """What is ended once nobody is answered any more."""

    def end_changes(self) -> None:
        """Lets what changes the book be done to its end, and nothing more begin."""

    def close(self) -> None:
        """Ends all else."""


def answer(
    app: Callable[[], Flask], listening: socket.socket, threads: int, begin: Callable[[], None], served: Ends
) -> None:
    """Answers by the app of the moment until Ctrl-C or SIGTERM. What changes the book is done to its end then, and
    told."""
    # before the threads are there that answer
    give_memory_back()
    # what waitress tells of a fault would have a trace
    logging.getLogger("waitress").addHandler(logging.NullHandler())
    logging.getLogger("waitress").propagate = False
    # its types, where there are any, know other servers and settings
    create: Any = create_server
    server = create(
        lambda environ, start: app()(environ, start), sockets=[listening], _dispatcher=threads_of(threads), ident=None,
        expose_tracebacks=False, **SETTINGS,
    )  # fmt: skip
    bounded(server, app)
    with_short_turns()
    with_cells_of_any_length()
    gc.set_threshold(*LOOKED_FOR)
    signal.signal(signal.SIGTERM, signal.default_int_handler)
    with contextlib.suppress(KeyboardInterrupt):
        begin()
        server.run()
    for one in signal.SIGINT, signal.SIGTERM:
        signal.signal(one, signal.SIG_IGN)
    served.end_changes()
    server.task_dispatcher.shutdown(cancel_pending=False, timeout=SECONDS_FOR_ANSWERS)
    served.close()
    print("The desk is closed.", flush=True)


def bound(address: str, port: int, otherwise: str) -> socket.socket:
    """A socket at a port of this machine, 0 for one that is free."""
    family = socket.AF_INET6 if ":" in address else socket.AF_INET
    try:
        return socket.create_server((address, port), family=family)
    except (OSError, OverflowError) as error:
        told = getattr(error, "strerror", None) or error
        raise Mistake(WebFault.NO_PORT.said(port=str(port), told=told, otherwise=otherwise)) from None


PREFIX, LOCK = "gudokeyi-desk-", "open"


@contextlib.contextmanager
def room() -> Iterator[pathlib.Path]:
    """A folder for what was dropped, which nobody else reads, as long as the desk is open. Those that desks left which
    were killed go."""
    drop_left(pathlib.Path(tempfile.gettempdir()))
    path = pathlib.Path(tempfile.mkdtemp(prefix=PREFIX))
    try:
        # a desk that is opened at the same moment sees no lock that isn't held
        begun = path / f".{LOCK}"
        with open(begun, "w", encoding="ascii") as lock:
            fcntl.flock(lock, fcntl.LOCK_EX)
            begun.rename(path / LOCK)
            yield path
    finally:
        shutil.rmtree(path, ignore_errors=True)


def drop_left(place: pathlib.Path) -> None:
    """Removes one's own folders of desks that aren't open any more."""
    for path in place.glob(f"{PREFIX}*"):
        with contextlib.suppress(OSError):
            if path.is_symlink() or path.stat().st_uid != os.getuid():
                continue
            with open(path / LOCK, "rb") as lock:
                fcntl.flock(lock, fcntl.LOCK_EX | fcntl.LOCK_NB)
                shutil.rmtree(path)


# Serves the desk of a book to several people, each with an account.

# clerks who wait for each other leave threads for readers
THREADS_FOR_SEVERAL = 40
# so long nobody filed before the files beside the database are written, in seconds
PAUSE_FOR_SEVERAL = 20


def serve(folder: pathlib.Path, program: BookSession, place: ListenAddress, names: list[str], proxy: str) -> None:
    """Answers at a place, by names; where there is a proxy it alone is answered."""
    server_address(place, names, proxy)
    accounts = Accounts(folder)
    if not accounts.all():
        make = f"{CALLED} account NAME --role keeper --book {shlex.quote(str(folder))}"
        raise Mistake(f"nobody has an account yet: make one for a keeper, as {make}")
    with bound(place.address, place.port, "name another one by --listen") as listening:
        with served_book_of(folder, program, read_only=False, pause=PAUSE_FOR_SEVERAL) as served:
            address = server_address(replace(place, port=listening.getsockname()[1]), names, proxy)
            logins = AccountLogins(accounts, address, Throttle(), AccessLog(sys.stderr))
            told = f"The desk answers at {address.scheme}://{address.hosts[0]}/; Ctrl-C or SIGTERM ends it."
            app = web_app(served, logins)
            keep_seeing(served)
            answer(lambda: app, listening, THREADS_FOR_SEVERAL, lambda: print(told, flush=True), served)
