"""Asks a person at a terminal whether a proof shall begin, since it takes long: `python3 -m building.asking QUESTION`
has status 0 where it shall, and where there is no terminal.

The terminal is the one on which standard error is seen; the other streams may lead to files.
"""
from __future__ import annotations

import contextlib
import select
import sys
import termios

SECONDS = 30


def is_at_terminal() -> bool:
    """Whether somebody sees what is told, and can answer."""
    try:
        with open("/dev/tty", "rb"):
            return sys.stderr is not None and sys.stderr.isatty()
    except OSError:
        return False


def consents(question: str, otherwise: bool) -> bool:
    """What the person at the terminal answers; without an answer in time it is `otherwise`."""
    choice, word = ("Y/n", "yes") if otherwise else ("y/N", "no")
    with open("/dev/tty", "r+b", buffering=0) as terminal:
        with contextlib.suppress(termios.error):
            # what was typed before is no answer
            termios.tcflush(terminal, termios.TCIFLUSH)
        terminal.write(f"{question} Begin? [{choice}, in {SECONDS} seconds {word}] ".encode())
        if not select.select([terminal], [], [], SECONDS)[0]:
            terminal.write(f"{word}\n".encode())
            return otherwise
        answer = terminal.readline().strip().lower()
    return answer in (b"y", b"yes") if answer else otherwise


if __name__ == "__main__":
    sys.exit(0 if not is_at_terminal() or consents(sys.argv[1], otherwise=True) else 1)
