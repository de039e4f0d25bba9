"""A process beside the server, which may need much memory and time: how it is begun and does its work, and what it
tells of how far it is and of what comes of it. One that looked at a sheet is kept a while for the next look at that."""
from __future__ import annotations

import contextlib
import gc
import os
import pathlib
import pickle
import signal
import subprocess
import sys
import threading
import time
from collections import OrderedDict
from collections.abc import Callable, Iterator
from dataclasses import dataclass
from typing import BinaryIO

from gudokeyi.domain.messages import Mistake
from gudokeyi.domain.people import WORKER
from gudokeyi.domain.requests import WebFault

TOP = pathlib.Path(__file__).resolve().parent.parent.parent
Work = Callable[..., object]


# told as a part of the work begins
Tell = Callable[[str], None]


@dataclass(frozen=True)
class Progress:
    """How far it is."""

    what: str


@dataclass(frozen=True)
class Finished:
    """What came of it."""

    value: object


@dataclass(frozen=True)
class Failed:
    """Why nothing came of it. A fault is one of the front desk itself."""

    sentences: tuple[str, ...]
    is_fault: bool = False


WorkerMessage = Progress | Finished | Failed


class WorkerProcess:
    """A process that does one work after the other, until it is ended. With niceness it takes less from others."""

    def __init__(self, niceness: int = 0) -> None:
        variables = {**os.environ, "PYTHONPATH": os.pathsep.join([str(TOP), os.environ.get("PYTHONPATH", "")])}
        self.process = subprocess.Popen(
            [sys.executable, "-m", "gudokeyi.web.worker_process", str(niceness)], stdin=subprocess.PIPE,
            stdout=subprocess.PIPE, env=variables, start_new_session=True,
        )  # fmt: skip

    def messages(self, work: Work, values: tuple[object, ...]) -> Iterator[WorkerMessage]:
        """It does some work of a module with these values and one more, to tell how far it is: what it writes, to the
        end of the work. A process that ends without a last message has failed."""
        assert self.process.stdin and self.process.stdout
        pickle.dump((WORKER.get(), work, values), self.process.stdin)
        self.process.stdin.flush()
        with contextlib.suppress(EOFError, pickle.UnpicklingError):
            while True:
                message: WorkerMessage = pickle.load(self.process.stdout)
                yield message
                if not isinstance(message, Progress):
                    return
        yield Failed((WebFault.WORK_ENDED.said(),), True)

    def ends_well(self) -> bool:
        """It has nothing more to do, and is waited for."""
        assert self.process.stdin and self.process.stdout
        with contextlib.suppress(BrokenPipeError):
            self.process.stdin.close()
        with self.process.stdout:
            return self.process.wait() == 0

    def kill(self) -> None:
        """Ends it, and those that it began."""
        with contextlib.suppress(ProcessLookupError, PermissionError):
            os.killpg(self.process.pid, signal.SIGKILL)

    def is_there(self) -> bool:
        return self.process.poll() is None


# What the process itself does.


def work_in_process(given: BinaryIO, out: BinaryIO) -> None:
    """Does what it is given, to the end of that."""
    while True:
        try:
            worker, work, values = pickle.load(given)
        except EOFError:
            return
        WORKER.set(worker)
        do_work(work, values, out)
        # what the work made, and isn't needed any more, goes behind its answer
        del work, values
        gc.collect()
        if not gc.get_freeze_count():
            # what the first work keeps isn't looked through again: the next one would wait for that
            gc.freeze()


def do_work(work: Work, values: tuple[object, ...], out: BinaryIO) -> None:
    def tell(message: WorkerMessage) -> None:
        pickle.dump(message, out)
        out.flush()

    try:
        tell(Finished(work(*values, lambda what: tell(Progress(what)))))
    except Mistake as mistake:
        tell(Failed(mistake.sentences))
    except MemoryError:
        tell(Failed((WebFault.NO_MEMORY.said(),)))
    except OSError as error:
        tell(Failed((WebFault.NO_FILE.said(error=error),)))


# Processes that looked at something, for the next look at the same: they have read it already.

# so many are kept, of which each has a whole book, and each so many seconds
MOST_KEPT, SECONDS_KEPT = 1, 120
Key = tuple[object, ...]


class KeptProcesses:
    """Those by what they looked at, the one that was used last behind the others."""

    def __init__(self) -> None:
        self.lock, self.is_over = threading.Lock(), False
        self.kept: OrderedDict[Key, tuple[WorkerProcess, float]] = OrderedDict()

    def has(self, key: Key) -> bool:
        with self.lock:
            return key in self.kept

    def taken(self, key: Key) -> WorkerProcess | None:
        """The one of a key, which is nobody else's from here on."""
        with self.lock:
            found = self.kept.pop(key, None)
        return found[0] if found and found[0].is_there() else None

    def keep(self, key: Key, process: WorkerProcess) -> None:
        with self.lock:
            before = self.kept.pop(key, None)
            self.kept[key] = process, time.monotonic()
            most = 0 if self.is_over else MOST_KEPT
            gone = [self.kept.popitem(last=False) for _ in range(len(self.kept) - most)]
        end_each([process for _, (process, _) in gone] + ([before[0]] if before else []))

    def end_unused(self) -> None:
        """Ends those that nobody asked for a while."""
        now = time.monotonic()
        with self.lock:
            old = [key for key, (_, since) in self.kept.items() if now - since > SECONDS_KEPT]
            gone = [self.kept.pop(key)[0] for key in old]
        end_each(gone)

    def end(self) -> None:
        with self.lock:
            self.is_over = True
            gone = [process for process, _ in self.kept.values()]
            self.kept.clear()
        end_each(gone)


def end_each(processes: list[WorkerProcess]) -> None:
    for process in processes:
        process.kill()
        process.ends_well()
