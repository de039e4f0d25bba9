"""Reads the words of a call, does what they ask for, and tells mistakes."""
from __future__ import annotations

import io
import os
import sys
from typing import NoReturn, TextIO, cast

from gudokeyi.cli.output import Harmless
from gudokeyi.cli.parser import joined
from gudokeyi.cli.statuses import Status, status_of
from gudokeyi.cli.words import words_for
from gudokeyi.domain.messages import Mistake
from gudokeyi.domain.mistakes import WrongWords
from gudokeyi.process import FAULT, end, how_grave, is_for_one_change, with_cells_of_any_length, with_short_turns


def main(words: list[str]) -> int:
    status = Status.NOT_DONE
    with_short_turns()
    with_cells_of_any_length()
    is_for_one_change()
    for stream in sys.stdout, sys.stderr:
        if isinstance(stream, io.TextIOWrapper):
            stream.reconfigure(encoding="utf-8", errors="backslashreplace")
    sys.stdout, sys.stderr = cast(TextIO, Harmless(sys.stdout)), cast(TextIO, Harmless(sys.stderr))
    try:
        only_text(words)
        call = joined(words)
        asked = words_for(call).parser.read(call)
        asked.does(asked)
        sys.stdout.flush()
        return int(asked.status)
    except Mistake as mistake:
        status, sentences = status_of(mistake), mistake.sentences
    except BrokenPipeError:
        # whoever read the output has enough of it, which is no mistake; what is left of it goes nowhere
        os.dup2(os.open(os.devnull, os.O_WRONLY), sys.stdout.fileno())
        return 0
    except KeyboardInterrupt:
        sentences = ("stopped",)
    except MemoryError:
        sentences = ("there isn't enough memory",)
    except OSError as error:
        sentences = (f"{error.filename or 'a file'}: {error.strerror or error}",)
    except Exception as error:  # a fault of the front desk itself, told without a traceback
        sentences = (
            f"a fault of the front desk itself ({type(error).__name__}: {error}): please report it, with the sheet",
        )
    for sentence in sentences:
        print(f"{how_grave(FAULT, sys.stderr)}gudokeyi: {sentence}", file=sys.stderr)
    return status


def only_text(words: list[str]) -> None:
    """A mistake where a word isn't text: a book couldn't keep it, nor could it be told. Python has half characters for
    the bytes that aren't."""
    for word in words:
        if not word.isascii() and any("\ud800" <= character <= "\udfff" for character in word):
            raise WrongWords(f"{word} isn't UTF-8 text: write it otherwise, or rename the file or folder that it names")


def run() -> NoReturn:
    """The command `gudokeyi` of an installed package."""
    end(main(sys.argv[1:]))
