"""Processes beside the pages as copies of one that has their modules: for tests of what such a process finds."""
from __future__ import annotations

import contextlib
import functools
import importlib
import multiprocessing
import os
import runpy
import sys
from collections.abc import Iterator, Mapping
from multiprocessing import forkserver
from multiprocessing.connection import Connection
from unittest import mock

from front_desk.desk import TOP
from gudokeyi.web import workers
from gudokeyi.web.worker_processes import WorkerProcess

COPIES = multiprocessing.get_context("forkserver")
# this module, with those of the work
COPIES.set_forkserver_preload([__name__])
MODULES = "sheet_work", "backup_work", "breed_work", "certificate_work", "mating_work"
for name in MODULES:
    importlib.import_module(f"gudokeyi.web.{name}")


def work(given: Connection, out: Connection, niceness: int, variables: Mapping[str, str]) -> None:
    """What `python -m gudokeyi.web.worker_process` does."""
    os.setsid()
    out.send_bytes(b"begun")
    os.environ.clear()
    os.environ.update(variables)
    os.dup2(given.fileno(), 0)
    os.dup2(out.fileno(), 1)
    given.close()
    out.close()
    sys.stdin, sys.argv = open(0), ["worker_process", f"{niceness}"]
    runpy.run_module("gudokeyi.web.worker_process", run_name="__main__")


@functools.cache
def begin() -> None:
    """Begins the process that is copied, which finds the modules by a variable."""
    paths = os.pathsep.join([str(TOP / "src"), str(TOP / "tests")])
    with mock.patch.dict(os.environ, {"PYTHONPATH": paths}):
        forkserver.ensure_running()


class Copy:
    """A copy, as the process of a worker is asked."""

    def __init__(self, niceness: int) -> None:
        (given, to_it), (from_it, out) = COPIES.Pipe(duplex=False), COPIES.Pipe(duplex=False)
        begin()
        self.process = COPIES.Process(target=work, args=(given, out, niceness, {**os.environ}), daemon=True)
        self.process.start()
        given.close()
        out.close()
        assert from_it.recv_bytes() == b"begun"
        self.stdin, self.stdout = os.fdopen(os.dup(to_it.fileno()), "wb"), os.fdopen(os.dup(from_it.fileno()), "rb")
        to_it.close()
        from_it.close()
        self.pid = self.process.pid

    def wait(self) -> int | None:
        self.process.join()
        return self.process.exitcode

    def poll(self) -> int | None:
        return self.process.exitcode


class PreparedWorker(WorkerProcess):
    def __init__(self, niceness: int = 0) -> None:
        self.process = Copy(niceness)  # type: ignore[assignment]


@contextlib.contextmanager
def prepared_workers() -> Iterator[None]:
    with mock.patch.object(workers, "WorkerProcess", PreparedWorker):
        yield
