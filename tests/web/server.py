"""The words `open` and `serve` in a folder, each until it is ended."""
from __future__ import annotations

import os
import pathlib
import random
import signal
import socket
import subprocess
import threading
from collections.abc import Iterator
from typing import IO

import pytest

from front_desk.desk import TOP

SECONDS = 300
# ports that the system gives to nobody who asks for any
PORTS = range(20_000, 32_000)
RUNNING: list[subprocess.Popen[str]] = []


@pytest.fixture(autouse=True)
def none_left() -> Iterator[None]:
    """Whatever a test comes to, no server goes on behind it."""
    yield
    while RUNNING:
        process = RUNNING.pop()
        process.kill()
        process.wait()
        if process.stdout:
            process.stdout.close()


def free_port() -> int:
    """One that may be asked for twice."""
    while True:
        port = random.choice(PORTS)
        try:
            socket.create_server(("127.0.0.1", port)).close()
        except OSError:
            continue
        return port


class Running:
    """A command that goes on until it is ended. `said` is the first line that it prints."""

    def __init__(self, room: pathlib.Path, program: str, command: list[str], errors: IO[str] | None = None) -> None:
        own = {name: os.environ.get(name, "") for name in ("XDG_CACHE_HOME", "GUDOKEYI_NUMBERS")}
        known = {"PATH": os.environ["PATH"], "HERDBOOK": program, "LANG": "C", "TMPDIR": str(room), **own}
        self.process = subprocess.Popen(command, cwd=room, env=known, stdout=subprocess.PIPE, stderr=errors, text=True)
        RUNNING.append(self.process)
        late = threading.Timer(SECONDS, self.process.kill)
        late.start()
        assert self.process.stdout
        self.said = self.process.stdout.readline()
        late.cancel()
        assert self.said, f"nothing is printed after {SECONDS} seconds: {self.process.poll()} {self.logged()}"

    def end(self, how: signal.Signals) -> str:
        """What it printed last; it ends well."""
        self.process.send_signal(how)
        told = self.process.communicate(timeout=SECONDS)[0]
        assert self.process.returncode == 0, f"{self.process.returncode}: {told}{self.logged()}"
        return told

    def logged(self) -> str:
        """What it told beside."""
        return ""

    def kill(self) -> None:
        self.process.kill()
        self.process.communicate()


class Server(Running):
    """The word `open`, until it is ended from the keyboard. Its link is the first that it prints."""

    def __init__(self, room: pathlib.Path, program: str, *words: str) -> None:
        super().__init__(room, program, [str(TOP / "gudokeyi"), "open", "--no-browser", *words])
        self.link = self.said.strip()
        self.base = self.link.partition("/enter")[0]

    def end(self, how: signal.Signals = signal.SIGINT) -> str:
        return super().end(how)
