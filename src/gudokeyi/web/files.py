"""Files that somebody dropped and didn't import yet: they lie outside the book, for an hour; the example's sheet, with
which a new user may play; and files that a browser is sent."""
from __future__ import annotations

import collections
import contextlib
import io
import os
import pathlib
import secrets
import shutil
import socket
import threading
import time
from collections.abc import Callable
from dataclasses import dataclass, field
from typing import BinaryIO

from flask import request
from werkzeug.datastructures import FileStorage
from werkzeug.wrappers import Response
from werkzeug.wsgi import wrap_file

from gudokeyi.domain.messages import Mistake
from gudokeyi.domain.requests import WebFault

# The example's sheet, which a new user may play with: that of a clone, or of an installed package.

PACKAGE = pathlib.Path(__file__).resolve().parents[1]
PLACES = [folder / "examples/society.csv" for folder in (PACKAGE.parents[1], PACKAGE)]
EXAMPLE = next((path for path in PLACES if path.exists()), PLACES[0])


# Files that somebody dropped and didn't take yet: they lie outside the book, for an hour.

SECONDS = 3600
# so many of one person lie there at once
MOST = 20
LONGEST_NAME = 120
# the name of a file that came without one
NAMELESS = "sheet.csv"


@dataclass
class Upload:
    """A file with its own name. `columns` are the titles that somebody chose for fields, `options` the other choices
    for its reading; `who` dropped it, and nobody else sees it."""

    token: str
    who: str
    path: pathlib.Path
    time: float
    columns: dict[str, str] = field(default_factory=dict)
    options: dict[str, str] = field(default_factory=dict)
    # what columns are kept as that the book doesn't know
    others: dict[str, str] = field(default_factory=dict)
    # how often it was looked at anew, and the animals that alone are asked about
    looks: int = 0
    again: tuple[str, ...] = ()

    def look_anew(self, again: tuple[str, ...] = ()) -> None:
        self.looks, self.again = self.looks + 1, again


class Uploads:
    """The files in a folder that nobody else reads, each in one of its own."""

    def __init__(self, room: pathlib.Path) -> None:
        self.room, self.lock = room, threading.Lock()
        self.found: dict[str, Upload] = {}

    def add(self, file: FileStorage, who: str) -> Upload:
        self.drop_old()
        token = secrets.token_urlsafe(16)
        folder = self.folder_of(token)
        folder.mkdir(mode=0o700)
        upload = Upload(token, who, right_in(folder, harmless(file.filename or "")), time.monotonic())
        try:
            file.save(upload.path)
        except OSError as error:
            shutil.rmtree(folder, ignore_errors=True)
            raise Mistake(WebFault.NOT_KEPT.said(error=error)) from None
        with self.lock:
            self.found[token] = upload
        return upload

    def of(self, token: str, who: str) -> Upload | None:
        """The file of a token, if it is somebody's own and its hour isn't over."""
        self.drop_old()
        with self.lock:
            upload = self.found.get(token)
        return upload if upload and upload.who == who else None

    def folder_of(self, token: str) -> pathlib.Path:
        """The folder that is made for one file, whatever that is called."""
        return self.room / token

    def folders(self) -> list[pathlib.Path]:
        """The folders of all files that are there."""
        with self.lock:
            return [*map(self.folder_of, self.found)]

    def drop(self, token: str) -> None:
        with self.lock:
            upload = self.found.pop(token, None)
        if upload:
            shutil.rmtree(self.folder_of(upload.token), ignore_errors=True)

    def drop_old(self) -> None:
        """Drops those whose hour is over, and the oldest where somebody has too many."""
        with self.lock:
            newest_first = sorted(self.found.values(), key=lambda one: -one.time)
        counts = collections.Counter[str]()
        for one in newest_first:
            counts[one.who] += 1
            if counts[one.who] > MOST or time.monotonic() - one.time > SECONDS:
                self.drop(one.token)


def right_in(folder: pathlib.Path, name: str) -> pathlib.Path:
    """A file of a folder by its name; one that would lie elsewhere gets another name."""
    path = folder / name
    return path if path.parent == folder and path.name != ".." else folder / NAMELESS


def harmless(name: str) -> str:
    """The last part of a file's name, without what does something in a folder or on a terminal."""
    last = name.replace("\\", "/").rpartition("/")[2]
    shown = "".join(one for one in last if one.isprintable()).strip().lstrip(".")
    shown = shown.encode("utf-8", "ignore").decode()
    if len(shown.encode()) > LONGEST_NAME:
        stem, dot, suffix = shown.rpartition(".")
        stem, suffix = (stem, suffix) if dot else (suffix, "")
        end = f"{dot}{suffix[:10]}"
        shown = stem.encode()[: LONGEST_NAME - len(end.encode())].decode("utf-8", "ignore") + end
    return shown or NAMELESS


# A file that a browser is sent, and what is done once it has the whole of it. That all was handed on says little: the
# system takes megabytes, and a browser may go away before they arrive. So the server says that nothing follows, and
# waits for how the other side ends: one that didn't read all that came is told otherwise by the system than one that
# did. What isn't known is what became of it behind a proxy, which reads for somebody else, and whether it was kept.

# where the server has the connection of a request
CONNECTION = "gudokeyi.connection"
# so long it is waited for the end
SECONDS_TO_ARRIVE = 600


class Download(io.BufferedReader):
    """The file, whose end is told where all of it arrived. A browser that goes away before hasn't got it."""

    def __init__(self, file: BinaryIO, then: Callable[[], None], channel: socket.socket | None) -> None:
        super().__init__(io.FileIO(os.dup(file.fileno())))
        self.size, self.then, self.channel, self.is_told = os.fstat(file.fileno()).st_size, then, channel, False

    def close(self) -> None:
        is_handed_on = not self.closed and not self.is_told and self.tell() == self.size
        super().close()
        if is_handed_on:
            self.is_told = True
            self.tell_end()

    def tell_end(self) -> None:
        if self.channel is None:
            self.then()
            return
        # a copy, since the server closes its own
        with contextlib.suppress(OSError, RuntimeError):
            threading.Thread(target=self.tell_arrived, args=(self.channel.dup(),), daemon=True).start()

    def tell_arrived(self, connection: socket.socket) -> None:
        if is_received(connection):
            self.then()


def is_received(connection: socket.socket) -> bool:
    """Did the other side read all that it was sent, and then end? One that drops some of it resets the connection."""
    with connection, contextlib.suppress(OSError):
        connection.settimeout(SECONDS_TO_ARRIVE)
        connection.shutdown(socket.SHUT_WR)
        return not connection.recv(1)
    return False


def download(file: BinaryIO, then: Callable[[], None], mimetype: str, name: str) -> Response:
    """The answer that has a file, of which nothing is kept in memory."""
    sent = Download(file, then, request.environ.get(CONNECTION))
    response = Response(wrap_file(request.environ, sent), mimetype=mimetype, direct_passthrough=True)
    response.content_length = sent.size
    response.headers["Content-Disposition"] = f"attachment; filename={name}"
    return response
