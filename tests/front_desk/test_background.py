"""What is found out beside other work is what it would be without, whatever happens meanwhile."""
from __future__ import annotations

import pathlib
import sqlite3
import threading
import time
from collections.abc import Callable, Iterator

import pytest

from front_desk.desk import Desk
from gudokeyi.background import Background, Pieces
from gudokeyi.domain.messages import Mistake
from gudokeyi.services.book_program import BookProgram
from gudokeyi.store.book import Book
from gudokeyi.store.journal import Part
from gudokeyi.store.transactions import reading

# the program that a script stands for
Program = Callable[[str], BookProgram]


@pytest.fixture
def herdbook(tmp_path: pathlib.Path, monkeypatch: pytest.MonkeyPatch) -> Program:
    def made(script: str) -> BookProgram:
        path = tmp_path / "herdbook"
        path.write_text(script, encoding="utf-8")
        path.chmod(0o755)
        monkeypatch.setenv("HERDBOOK", str(path))
        return BookProgram()

    return made


def test_the_value_is_waited_for() -> None:
    may_end = threading.Event()

    def find() -> int:
        assert may_end.wait(20)
        return 7

    beside = Background(find)
    # nobody who ends waits for it
    assert beside.thread.daemon
    may_end.set()
    assert beside.value() == 7
    assert beside.value() == 7


@pytest.mark.parametrize("error", [ValueError("no"), SystemExit("no")])
def test_what_goes_wrong_is_raised_where_the_value_is_asked_for(error: BaseException) -> None:
    def find() -> int:
        raise error

    beside = Background(find)
    for _ in range(2):
        with pytest.raises(type(error), match="no"):
            beside.value()


def test_a_journal_that_is_read_beside_is_that_of_its_moment(mrode_desk: Desk) -> None:
    """Another change, and an undo that begins a new edition, are committed before it is read."""
    with reading(mrode_desk.room / "book") as connection:
        book = Book(mrode_desk.room / "book", connection)
        text = Book(book.folder, connection).command_file()
        mrode_desk.good("birth", "new", "--sex", "f", "--day", "2020-01-01")
        mrode_desk.good("undo", "--to", "0")
        with book.journal_read_beside():
            assert book.beside is not None and book.beside.value() == text
        assert book.command_file() == text and Book(book.folder, connection).change == book.change


def test_a_journal_of_many_pieces_is_whole(mrode_desk: Desk, monkeypatch: pytest.MonkeyPatch) -> None:
    mrode_desk.good("birth", "new", "--sex", "f", "--day", "2020-01-01")
    with reading(mrode_desk.room / "book") as connection:
        wanted = Book(mrode_desk.room / "book", connection).command_file()
        for most in 1, 2, 3, wanted.count(b"\n") - 1:
            monkeypatch.setattr("gudokeyi.store.journal.IN_A_PIECE", most)
            book = Book(mrode_desk.room / "book", connection)
            with book.journal_read_beside():
                assert book.beside is not None and book.beside.value() == wanted
            assert Book(book.folder, connection).command_file() == wanted


def test_pieces_are_had_in_their_order() -> None:
    """Those who find them come to them in any order, and each is had before later ones are found."""
    first_is_had = threading.Event()

    def find(places: Iterator[int]) -> Iterator[tuple[int, bytes]]:
        for at in places:
            if at:
                assert first_is_had.wait(20)
                time.sleep(0.01 * (5 - at))
            yield at, b"%d" % at

    pieces = Pieces(b"head", 5, [find] * 3)
    found = iter(pieces)
    assert next(found) == b"head" and next(found) == b"0"
    first_is_had.set()
    assert [*found] == [b"1", b"2", b"3", b"4"] and pieces.value() == b"head01234"


def test_all_who_find_pieces_are_waited_for() -> None:
    """Whichever of them ends last."""
    ended = list[bool]()

    def quick(places: Iterator[int]) -> list[tuple[int, bytes]]:
        return []

    def slow(places: Iterator[int]) -> list[tuple[int, bytes]]:
        time.sleep(0.1)
        ended.append(True)
        return []

    for finders in [quick, slow], [slow, quick]:
        ended.clear()
        Pieces(b"", 0, finders).wait()
        assert ended


@pytest.mark.parametrize("place", [0, 2])
def test_where_a_piece_is_not_found_nothing_is_had_as_the_whole(place: int) -> None:
    def find(places: Iterator[int]) -> Iterator[tuple[int, bytes]]:
        for at in places:
            if at == place:
                raise sqlite3.OperationalError("disk I/O error")
            yield at, b"x"

    pieces = Pieces(b"", 3, [find] * 2)
    pieces.wait()
    for _ in range(2):
        with pytest.raises(sqlite3.OperationalError, match="disk"):
            pieces.value()


@pytest.mark.parametrize("text", ["", "one\ntwo\n", "x" * 3_000_000], ids=["empty", "lines", "long"])
def test_a_program_reads_pieces_as_they_are_found(text: str, herdbook: Program) -> None:
    """It gets all of them, and answers once it has the last one."""
    may_end, half = threading.Event(), len(text) // 2

    def find(places: Iterator[int]) -> Iterator[tuple[int, bytes]]:
        for at in places:
            assert not at or may_end.wait(20)
            yield at, (text[half:] if at else text[:half]).encode()

    answer = Background(lambda: herdbook("#!/bin/sh\ncat\n").run_meanwhile([], Pieces(b"", 2, [find])))
    answer.thread.join(0.1)
    assert answer.thread.is_alive()
    may_end.set()
    assert answer.value() == text


@pytest.mark.parametrize(
    ("script", "told"),
    [
        ("echo early", "Broken pipe"),
        ("echo 'herdbook: no memory' >&2; exit 1", r"no memory \(it may use 4 GB of memory\)\. Nothing is changed$"),
        ("kill -9 $$", r"it: it ended with status -9 \(it may use 4 GB of memory\)\. Nothing is changed$"),
        ("echo 'herdbook: no luck' >&2; exit 1", "it: no luck$"),
        (
            "echo 'herdbook: record 2: no day' >&2; exit 1",
            r"it: record 2: no day\. Somebody has changed the command file: restore it$",
        ),
    ],
)
def test_a_program_that_reads_no_further(script: str, told: str, herdbook: Program) -> None:
    """What it answered before it had read all is no answer."""
    pieces = Pieces(b"", 1, [lambda places: ((at, b"x" * 3_000_000) for at in places)])
    with pytest.raises((Mistake, BrokenPipeError), match=told):
        herdbook(f"#!/bin/sh\n{script}\n").run_meanwhile(["mating"], pieces)


@pytest.mark.parametrize("script", ["cat", "cat >/dev/null; echo 'herdbook: record 2: not whole' >&2; exit 1"])
def test_no_answer_is_had_of_a_journal_that_is_read_in_part(script: str, herdbook: Program) -> None:
    """Nor is the part that the program got told as wrong."""

    def find(places: Iterator[int]) -> Iterator[tuple[int, bytes]]:
        yield next(places), b"one\n"
        raise sqlite3.OperationalError("disk I/O error")

    with pytest.raises(sqlite3.OperationalError, match="disk"):
        herdbook(f"#!/bin/sh\n{script}\n").run_meanwhile(["mating"], Pieces(b"", 2, [find]))


def test_a_journal_is_read_though_it_can_not_be_read_beside(
    mrode_desk: Desk, monkeypatch: pytest.MonkeyPatch
) -> None:
    def closed(path: pathlib.Path, mode: str) -> sqlite3.Connection:
        raise sqlite3.OperationalError("unable to open database file")

    monkeypatch.setattr("gudokeyi.store.journal.connect", closed)
    with reading(mrode_desk.room / "book") as connection:
        book = Book(mrode_desk.room / "book", connection)
        with book.journal_read_beside():
            assert book.command_file() == Book(book.folder, connection).command_file()


def test_nothing_is_left_beside_a_book_where_a_call_is_mistaken(
    mrode_desk: Desk, monkeypatch: pytest.MonkeyPatch
) -> None:
    """The other connection is closed before the call ends, however long it reads."""
    ended = list[bool]()

    def late(connection: sqlite3.Connection, part: Part) -> bytes:
        time.sleep(0.2)
        ended.append(True)
        return b""

    monkeypatch.setattr("gudokeyi.store.journal.piece_of", late)
    with reading(mrode_desk.room / "book") as connection, pytest.raises(Mistake, match="mistaken"):
        with Book(mrode_desk.room / "book", connection).journal_read_beside():
            raise Mistake("mistaken")
    assert ended
