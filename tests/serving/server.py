"""The word `serve` in a folder, and browsers that ask it over the network of the machine."""
from __future__ import annotations

import http.client
import pathlib
import re
import signal
import tempfile
import urllib.parse

from web.server import SECONDS, Running
from front_desk.desk import TOP
from gudokeyi.web.forms import new_form
from serving.visitor import WORD

TOKEN = re.compile(r'name="csrf_token" value="([^"]+)"')


class Server(Running):
    """The word `serve`, until it is ended."""

    def __init__(self, room: pathlib.Path, program: str, *words: str, port: int = 0) -> None:
        self.log = tempfile.TemporaryFile("w+", encoding="utf-8")
        command = [str(TOP / "gudokeyi"), "serve", "--listen", f"127.0.0.1:{port}", *words]
        super().__init__(room, program, command, self.log)
        found = re.match(r"The desk answers at (https?)://([^/]+)/; Ctrl-C or SIGTERM ends it\.", self.said)
        assert found, f"{self.said}{self.logged()}"
        self.host = found[2]
        self.port = int(self.host.rpartition(":")[2]) if ":" in self.host else port

    def logged(self) -> str:
        with open(f"/proc/self/fd/{self.log.fileno()}", encoding="utf-8") as file:
            return file.read()

    def end(self, how: signal.Signals = signal.SIGTERM) -> str:
        return super().end(how)


class Browser:
    """One connection that is kept, with its cookie."""

    def __init__(self, server: Server, name: str = "") -> None:
        self.host, self.cookie = server.host, ""
        self.connection = http.client.HTTPConnection("127.0.0.1", server.port, timeout=SECONDS)
        if name:
            self.token = self.token_of("/login")
            status, to, _ = self.post("/login", name=name, password=WORD)
            assert status == 302 and to == "/"
            self.token = self.token_of("/settings")

    def ask(self, method: str, path: str, body: bytes | None = None, **headers: str) -> tuple[int, str, str]:
        """The status, where it leads, and the page."""
        self.connection.request(method, path, body, {"Host": self.host, "Cookie": self.cookie} | headers)
        answer = self.connection.getresponse()
        page = answer.read().decode("utf-8", "replace")
        for cookie in answer.headers.get_all("Set-Cookie") or []:
            self.cookie = cookie.partition(";")[0]
        return answer.status, answer.headers.get("Location", ""), page

    def get(self, path: str) -> str:
        """A page, also where the book moved while it was made, and it is asked for again."""
        status, to, page = self.ask("GET", path)
        while status == 302 and "again=" in to:
            status, to, page = self.ask("GET", to)
        assert status == 200, f"{path}: {status}"
        return page

    def post(self, path: str, **fields: str) -> tuple[int, str, str]:
        body = urllib.parse.urlencode({"csrf_token": self.token, "form": new_form()} | fields).encode()
        kind = {"Content-Type": "application/x-www-form-urlencoded"}
        return self.ask("POST", path, body, **kind)

    def token_of(self, path: str) -> str:
        found = TOKEN.search(self.get(path))
        assert found
        return found[1]
