"""The desk that the desktop's menu opens, without a terminal: of a folder that is asked for once, in the browser, and
remembered. A page closes it. Opened again while it is open, it comes to the browser again."""
from __future__ import annotations

import contextlib
import fcntl
import os
import pathlib
import secrets
import signal
import sys
import threading
import time
import webbrowser
from collections.abc import Iterator
from dataclasses import dataclass
from typing import IO

from flask import Flask

from gudokeyi.domain.messages import Mistake
from gudokeyi.domain.requests import WebFault
from gudokeyi.services.book_session import BookSession
from gudokeyi.web.access import LinkLogins
from gudokeyi.web.app import web_app
from gudokeyi.web.verification import keep_seeing
from gudokeyi.web.folders import own_folder, remembered
from gudokeyi.web.routes import folder as asking
from gudokeyi.web.served_book import ServedBook
from gudokeyi.web.server import ADDRESS, THREADS, answer, bound, served_book_of

# the folder of a desk that asks for one
NOWHERE = pathlib.Path("/nonexistent/book")
# so long the page that says that the desk is closed has to come to the browser, and another call waits for its link
SECONDS_TO_CLOSE, SECONDS_FOR_LINK = 0.5, 10


def open_from_menu(port: int, opens_browser: bool) -> None:
    """Opens the desk of the remembered folder, or the page that asks for one."""
    with only_one() as kept:
        if kept is None:
            show(open_link(), opens_browser)
            return
        told = kept
        with bound(ADDRESS, port, "leave out --port") as listening:
            logins = LinkLogins(secrets.token_urlsafe(24), listening.getsockname()[1])
            link = f"http://{ADDRESS}:{logins.port}/enter/{logins.secret}"
            served = MenuDesk(logins)
            served.show_remembered()

            def begin() -> None:
                told.write(link)
                told.flush()
                show(link, opens_browser)

            answer(lambda: served.shown.app, listening, THREADS, begin, served)


def show(link: str, opens_browser: bool) -> None:
    """The link is a secret: it isn't told where a log is kept of what is told."""
    if not opens_browser or sys.stdout.isatty():
        print(link, flush=True)
    if opens_browser and not webbrowser.open(link):
        print("gudokeyi: no browser could be opened here: install one", file=sys.stderr)


# The one desk of somebody: a file is locked as long as it is open, and has its link.


@contextlib.contextmanager
def only_one() -> Iterator[IO[str] | None]:
    """The file for the link; none where a desk is open already."""
    path = link_file()
    path.parent.mkdir(mode=0o700, parents=True, exist_ok=True)
    with open(os.open(path, os.O_RDWR | os.O_CREAT, 0o600), "r+", encoding="utf-8") as kept:
        try:
            fcntl.flock(kept, fcntl.LOCK_EX | fcntl.LOCK_NB)
        except BlockingIOError:
            yield None
            return
        kept.truncate(0)
        yield kept
        kept.truncate(0)


def open_link() -> str:
    """That of the desk that is open, which may only begin to be."""
    until = time.monotonic() + SECONDS_FOR_LINK
    while not (link := link_file().read_text(encoding="utf-8")) and time.monotonic() < until:
        time.sleep(0.1)
    return link


def link_file() -> pathlib.Path:
    given = os.environ.get("XDG_RUNTIME_DIR")
    return (pathlib.Path(given) if given else own_folder("XDG_STATE_HOME", ".local/state")) / "gudokeyi/desk"


# What is answered: the book of a folder, or the page that asks for one. Another folder is another application in the
# place of the one before.


@dataclass
class Shown:
    """What is open for a folder."""

    app: Flask
    served: ServedBook
    opened: contextlib.ExitStack

    def end(self) -> None:
        self.served.end_changes()
        self.served.close()
        self.opened.close()


class MenuDesk:
    """The application, and the folder whose book it shows; none where it asks."""

    def __init__(self, logins: LinkLogins) -> None:
        self.logins = logins
        self.folder: pathlib.Path | None = None
        # why it asks, though a folder is remembered
        self.faults: tuple[str, ...] = ()
        self.lock = threading.Lock()
        self.shown = self.opened(None)

    def show_remembered(self) -> None:
        folder = remembered()
        if folder is None:
            return
        try:
            if not folder.is_dir():
                raise Mistake(WebFault.FOLDER_GONE.said(folder=str(folder)))
            self.show(folder)
        except Mistake as mistake:
            self.faults = mistake.sentences

    def show(self, folder: pathlib.Path) -> None:
        """Shows the book of a folder from now on; where it can't be opened a mistake says why, and all stays."""
        with self.lock:
            shown, before = self.opened(folder), self.shown
            self.shown, self.folder, self.faults = shown, folder, ()
        keep_seeing(shown.served)
        threading.Thread(target=before.end, daemon=True).start()

    def opened(self, folder: pathlib.Path | None) -> Shown:
        program = BookSession()
        if folder is not None:
            program.look_for()
        opened = contextlib.ExitStack()
        served = opened.enter_context(served_book_of(folder or NOWHERE, program, read_only=False))
        app = web_app(served, self.logins)
        asking.add_to(app, self)
        return Shown(app, served, opened)

    def close_soon(self) -> None:
        """Ends the desk once the page that says so has come to the browser."""
        threading.Timer(SECONDS_TO_CLOSE, os.kill, (os.getpid(), signal.SIGTERM)).start()

    def end_changes(self) -> None:
        self.shown.served.end_changes()

    def close(self) -> None:
        self.shown.served.close()
        self.shown.opened.close()
