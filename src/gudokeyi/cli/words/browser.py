"""The word that opens the desk in a browser: `open`."""
from __future__ import annotations

import argparse

from gudokeyi.cli.arguments import whole_number
from gudokeyi.cli.parser import CommandWords
from gudokeyi.domain.mistakes import WrongWords
from gudokeyi.packages import Group, need

LAST_PORT = 65_535


def add_words(words: CommandWords) -> None:
    opened = words.add(
        "open",
        do_open,
        "open the desk in a browser, until Ctrl-C",
        "Sheets are taken there, commands filed, animals searched, certificates printed and matings planned.",
    )
    opened.add_argument(
        "--port", type=whole_number, default=0, metavar="N", help="this port of the machine [a free one]"
    )
    how = opened.add_mutually_exclusive_group()
    how.add_argument("--read-only", action="store_true", help="show everything, and change nothing")
    how.add_argument(
        "--ask", action="store_true",
        help="ask for the book's folder in the browser, once: it is remembered, as for the desktop's menu, which calls this",
    )  # fmt: skip
    opened.add_argument(
        "--no-browser", action="store_true", help="start no browser: the link that is printed is opened in one"
    )


def do_open(asked: argparse.Namespace) -> None:
    if asked.port > LAST_PORT:
        raise WrongWords(f"there is no port {asked.port}: name one up to {LAST_PORT}, or leave out --port")
    need(Group.BROWSER)
    need(Group.BREED)
    if asked.ask:
        from gudokeyi.web.menu import open_from_menu

        open_from_menu(asked.port, not asked.no_browser)
        return
    from gudokeyi.services.book_session import BookSession
    from gudokeyi.web.server import open_in_browser

    program = BookSession()
    program.look_for()
    open_in_browser(asked.book, program, asked.port, asked.read_only, not asked.no_browser)
