"""What the library leaves as it was: the process, its output, and what isn't asked for."""
from __future__ import annotations

import csv
import datetime
import gc
import pathlib
import resource
import signal
import subprocess
import sys

import pytest

import gudokeyi

SIGNALS = (signal.SIGINT, signal.SIGTERM, signal.SIGVTALRM, signal.SIGPROF, signal.SIGXCPU)


def state_of_process() -> tuple[object, ...]:
    timers = (signal.getitimer(signal.ITIMER_VIRTUAL), signal.getitimer(signal.ITIMER_PROF))
    limits = (resource.getrlimit(resource.RLIMIT_AS), resource.getrlimit(resource.RLIMIT_CPU))
    collector = (gc.isenabled(), gc.get_threshold(), gc.get_freeze_count())
    handlers = tuple(signal.getsignal(one) for one in SIGNALS)
    return (*timers, *limits, *collector, *handlers, sys.getswitchinterval(), csv.field_size_limit(), sys.argv[:])


def test_process(empty: gudokeyi.Book, sheet: pathlib.Path, capfd: pytest.CaptureFixture[str]) -> None:
    """Whatever is asked and filed."""
    before = state_of_process()
    empty.import_sheet(sheet, preview=True)
    empty.import_sheet(sheet)
    empty.file(gudokeyi.Exit("a1", datetime.date(2012, 1, 1)))
    assert empty.list() and empty.history() and empty.settings() and empty.export()
    empty.verify()
    empty.mating("a9")
    empty.certificate("a12")
    empty.undo()
    empty.change_settings({gudokeyi.Setting.NAME: "Verein"})
    empty.backup(sheet.with_name("copy"))
    empty.restore(sheet.with_name("copy"), anyway=True)
    assert state_of_process() == before
    assert capfd.readouterr() == ("", "")


def test_import_of_the_package(tmp_path: pathlib.Path) -> None:
    """To import it loads little, and sets nothing; each name is there."""
    code = """
import csv, gc, signal, sys
before = (gc.get_threshold(), sys.getswitchinterval(), csv.field_size_limit(), signal.getsignal(signal.SIGINT))
import gudokeyi
loaded = [name for name in sys.modules if name.startswith("gudokeyi")]
assert loaded == ["gudokeyi"], loaded
assert all(getattr(gudokeyi, name) is not None for name in gudokeyi.__all__) and set(gudokeyi.__all__) <= {*dir(gudokeyi)}
assert "flask" not in sys.modules and "openpyxl" not in sys.modules and "networkx" not in sys.modules
after = (gc.get_threshold(), sys.getswitchinterval(), csv.field_size_limit(), signal.getsignal(signal.SIGINT))
assert before == after
try:
    gudokeyi.nothing
except AttributeError as error:
    print(error)
"""
    source = pathlib.Path(gudokeyi.__file__).resolve().parents[1]
    environment = {"PYTHONPATH": str(source), "PYTHONWARNINGS": "error"}
    done = subprocess.run([sys.executable, "-c", code], env=environment, cwd=tmp_path, capture_output=True, text=True)
    assert (done.stdout, done.stderr) == ("module 'gudokeyi' has no attribute 'nothing'\n", "")


def test_page(tmp_path: pathlib.Path) -> None:
    """`python -m pydoc gudokeyi` shows the door as a page: what it is for, the book with its methods, and the
    mistakes."""
    source = pathlib.Path(gudokeyi.__file__).resolve().parents[1]
    environment = {"PYTHONPATH": str(source), "PAGER": "cat"}
    asked = [sys.executable, "-m", "pydoc", "gudokeyi"]
    page = subprocess.run(asked, env=environment, cwd=tmp_path, capture_output=True, text=True).stdout
    for text in (
        'Book.open("book")',
        "class Book(",
        "mating(self, dam",
        "AnimalNotFound",
        "class ImportOptions(",
        "2^-120",
    ):
        assert text in page, text
    # each public method and value says what it is
    for name in gudokeyi.__all__[1:]:
        assert (getattr(gudokeyi, name).__doc__ or "").strip(), name
    for name, method in vars(gudokeyi.Book).items():
        assert name.startswith("_") or (method.__doc__ or "").strip(), name
