"""The desk that the desktop's menu opens: it asks for the book's folder once, remembers it, and a page closes it."""
from __future__ import annotations

import html
import pathlib
import re
import subprocess
import urllib.error
import urllib.parse
import urllib.request

import pytest

from web.server import SECONDS, Running
from web.site import shown
from web.test_open import Browser
from front_desk.desk import TOP, Desk
from gudokeyi.domain.messages import Mistake
from gudokeyi.web import folders

CALL = [str(TOP / "gudokeyi"), "open", "--ask", "--no-browser"]


class Menu(Running):
    """What the menu calls, in a home folder of somebody's own, and a browser that came by the link."""

    def __init__(self, home: pathlib.Path, program: str) -> None:
        self.home = home
        super().__init__(home, program, ["env", f"HOME={home}", f"XDG_RUNTIME_DIR={home}/run", *CALL])
        self.link = self.said.strip()
        self.base = self.link.partition("/enter")[0]
        self.browser = Browser()
        self.browser.open(self.link).close()

    def page(self, path: str = "/") -> str:
        with self.browser.open(self.base + path) as answer:
            return str(answer.read().decode())

    def post(self, path: str, **fields: str) -> str:
        """The page that a form leads to, whatever its status."""
        token = re.search(r'name="csrf_token" value="([^"]+)"', self.page("/folder"))
        assert token
        body = urllib.parse.urlencode({"csrf_token": token[1], **fields}).encode()
        try:
            with self.browser.open(urllib.request.Request(self.base + path, body)) as answer:
                return str(answer.read().decode())
        except urllib.error.HTTPError as refused:
            return refused.read().decode()

    def closed(self) -> str:
        """What it printed last, once a page has closed it."""
        assert "This page may be closed" in shown(self.post("/folder/close"))
        told = self.process.communicate(timeout=SECONDS)[0]
        assert self.process.returncode == 0
        return told

    def called_again(self) -> str:
        """What another call prints meanwhile."""
        known = {"PATH": "/usr/bin:/bin", "HOME": str(self.home), "XDG_RUNTIME_DIR": f"{self.home}/run"}
        return subprocess.run(CALL, env=known, capture_output=True, text=True, timeout=SECONDS).stdout


@pytest.fixture
def home(tmp_path: pathlib.Path, monkeypatch: pytest.MonkeyPatch) -> pathlib.Path:
    """A home folder with one of documents."""
    path = tmp_path / "home"
    (path / "Documents/goats").mkdir(parents=True)
    (path / "Documents/goats/sheet.csv").write_text("id\n")
    (path / ".config").mkdir()
    (path / ".config/user-dirs.dirs").write_text('# a desktop\'s own\nXDG_DOCUMENTS_DIR="$HOME/Documents"\n')
    monkeypatch.setenv("HOME", str(path))
    monkeypatch.delenv("XDG_CONFIG_HOME", raising=False)
    return path


def test_asks_once(home: pathlib.Path, program: str) -> None:
    """Every page leads to the question; what is named is made, shown and remembered."""
    desk = Menu(home, program)
    for path in ("/", "/animals", "/sheet"):
        page = desk.page(path)
        assert "Where is the herd book?" in shown(page) and "<nav" not in page
    assert f'value="{home}/Documents/Herd book"' in desk.page("/folder")
    assert "can't be used" in html.unescape(shown(desk.post("/folder", folder="/proc/book")))
    assert "There is no book in this folder yet" in shown(desk.post("/folder", folder="Documents/goats"))
    # in a folder with other files the book has one of its own
    assert (home / ".config/gudokeyi/folder").read_text() == f"{home}/Documents/goats/book\n"
    assert str(home / "Documents/goats/book") in desk.page()
    assert desk.called_again() == desk.said
    assert desk.closed() == "The desk is closed.\n"
    assert (home / "Documents/goats/sheet.csv").exists()


def test_remembers(society_desk: Desk, home: pathlib.Path) -> None:
    """The remembered book is shown at once, another one in its place, and by the next call that one."""
    first = society_desk.copy_to(home / "first").room / "book"
    second = society_desk.copy_to(home / "second").room / "book"
    folders.remember(first)
    desk = Menu(home, society_desk.program)
    assert "502" in shown(desk.page())
    page = desk.page("/folder")
    assert f'value="{first}"' in page and f'value="{second}"' in page
    assert "502" in shown(desk.post("/folder", folder=str(second)))
    desk.closed()
    assert folders.remembered() == second
    again = Menu(home, society_desk.program)
    assert str(second) in again.page()
    assert again.closed() == "The desk is closed.\n"


def test_a_folder_that_is_gone(home: pathlib.Path, program: str) -> None:
    """It isn't made anew: a drive may be missing."""
    folders.remember(home / "drive/book")
    desk = Menu(home, program)
    assert f"the folder {home}/drive/book isn't there: connect the drive" in html.unescape(shown(desk.page()))
    assert not (home / "drive").exists()
    desk.closed()


@pytest.mark.parametrize(("text", "folder"), [
    ("", None), ("Documents/goats/sheet.csv", None), ("Documents/goats", "Documents/goats/book"),
    ("~/new one", "new one"), ("Documents/goats/book", "Documents/goats/book"),
])  # fmt: skip
def test_what_is_meant(home: pathlib.Path, text: str, folder: str | None) -> None:
    if folder is None:
        with pytest.raises(Mistake):
            folders.chosen(text)
    else:
        assert folders.chosen(text) == home / folder and (home / folder).is_dir()


def test_books_that_are_found(home: pathlib.Path) -> None:
    """Those that aren't hidden, and not too deep."""
    for name in ("a/book", "Documents/goats/b", ".hidden/c", "one/two/three/four/d"):
        (home / name).mkdir(parents=True)
        (home / name / "book.sqlite").touch()
    assert folders.books_found() == [home / "Documents/goats/b", home / "a/book"]
