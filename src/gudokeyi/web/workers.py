"""Work in processes beside the server, which may need much memory and time: how it is begun, what it tells, how far
each is, and what came of it, kept with the state of the book."""
from __future__ import annotations

import contextlib
import contextvars
import enum
import pathlib
import secrets
import sys
import threading
import time
from collections import OrderedDict
from collections.abc import Callable

from gudokeyi.domain.messages import Mistake
from gudokeyi.domain.people import WORKER
from gudokeyi.domain.requests import WebFault
from gudokeyi.domain.waiting import UNTIL
from gudokeyi.process import FAULT, how_grave, take_what_is_left
from gudokeyi.services.folder_files import refresh
from gudokeyi.web.work_places import BOUNDS, BREED, LOOKING, MOST_OF_PERSON, OTHERS, TAKING as TAKING, Bounds, Places
from gudokeyi.web.worker_processes import Failed, Finished, KeptProcesses, Progress, Tell as Tell, WorkerProcess

# Work that goes on in processes beside the server: how far each is, and what came of it, kept with the state of the
# book that it is of.

# so many results are kept, and so long a page waits for one that is there soon, in seconds; so long behind its begin
# for one by a process that is kept for it, of which there are few: a page that asks again would be a second late
MOST = 12
SOON, SOON_BY_KEPT = 0.15, 2.0
# so long nobody asked for work that goes on, in seconds, and it is ended; so often that is looked at
SECONDS_UNASKED, SECONDS_BETWEEN = 120, 1
Key = tuple[object, ...]
# what is done with what came of it, before anybody sees that
Then = Callable[[object], None]
# the kind of advice on a dam, of which few are kept since each may be long
ADVICE = "advice"
MOST_ADVICE = 3
# the kind of a plan of matings
PLAN = "plan"
# the kinds of which the last one is shown while one of the book of now is made
OF_STATES = (BREED, PLAN)


class Stage(enum.Enum):
    UNDER_WAY = "under way"
    DONE = "done"
    FAILED = "failed"


class Job:
    """Some work: who asked for it, its stage, what it told last, and what came of it."""

    def __init__(self, key: Key, then: Then | None = None) -> None:
        self.key, self.then, self.began = key, then, time.monotonic()
        self.person, self.id = WORKER.get(), secrets.token_urlsafe(12)
        self.stage, self.told = Stage.UNDER_WAY, ""
        # when it was asked for last, when its process began, and when it was over
        self.asked, self.started, self.ended = self.began, 0.0, 0.0
        # the page that waits for it, where another leads there
        self.address = ""
        self.value: object = None
        self.failed = Failed(())
        self.is_over = threading.Event()
        # what came of it is known, though its process may not have ended yet
        self.is_told = threading.Event()
        self.process: WorkerProcess | None = None
        # why it is ended before it is done
        self.stopped = ""
        # is a process kept for it, as it begins?
        self.is_by_kept = False

    @property
    def kind(self) -> str:
        return str(self.key[0])

    @property
    def of(self) -> Key:
        """The kind, and what it is done with."""
        return self.key[:2]

    @property
    def bounds(self) -> Bounds:
        return BOUNDS.get(self.kind, OTHERS)

    @property
    def seconds(self) -> int:
        return int(time.monotonic() - self.began)

    def wait_soon(self) -> None:
        """Waits a moment for its end."""
        left = self.began + SOON_BY_KEPT - time.monotonic() if self.is_by_kept else 0
        self.is_over.wait(max(SOON, left))

    @property
    def waits(self) -> bool:
        """Does it wait for a place?"""
        return not self.started and self.kind in BOUNDS

    def do(
        self, work: Callable[..., object], values: tuple[object, ...], kept: KeptProcesses | None = None
    ) -> None:
        """In a process, which is kept for the next look where this is one."""
        try:
            self.started = time.monotonic()
            self.process = kept.taken(self.of) if kept else None
            self.process = self.process or WorkerProcess(self.bounds.niceness if self.kind in BOUNDS else 0)
            if self.stopped:
                self.process.kill()
            for message in self.process.messages(work, values):
                self.take(message)
            if kept and self.stage is Stage.DONE:
                kept.keep(self.of, self.process)
            elif not self.process.ends_well():
                self.take(Failed((WebFault.WORK_ENDED.said(),), True))
        except OSError as error:
            self.take(Failed((WebFault.NO_PROCESS.said(error=error),)))
        except BaseException:
            self.take(Failed((WebFault.WORK_ENDED.said(),), True))
            raise
        finally:
            self.over()

    def do_here(self, compute: Callable[[], object]) -> None:
        """The same in this process."""
        try:
            self.take(Finished(compute()))
        except Mistake as mistake:
            self.take(Failed(mistake.sentences))
        except BaseException:
            self.take(Failed((WebFault.WORK_ENDED.said(),), True))
            raise
        finally:
            self.over()

    def fail(self, sentence: str) -> None:
        """Ends work that wasn't begun."""
        self.take(Failed((sentence,)))
        self.over()

    def over(self) -> None:
        self.ended = time.monotonic()
        self.is_told.set()
        self.is_over.set()

    def stop(self, sentence: str) -> None:
        """Ends it, also where it still waits for its place. What it was about to change isn't changed."""
        self.stopped = self.stopped or sentence
        if self.process and not self.is_over.is_set():
            self.process.kill()

    def take(self, message: object) -> None:
        if isinstance(message, Progress):
            self.told = message.what
        elif isinstance(message, Finished):
            if self.then:
                self.then(message.value)
            self.value, self.stage = message.value, Stage.DONE
            self.is_told.set()
        elif isinstance(message, Failed):
            self.failed, self.stage = Failed((self.stopped,)) if self.stopped else message, Stage.FAILED
            self.is_told.set()


class Jobs:
    """The work that was begun, by what it is."""

    def __init__(self) -> None:
        self.lock = threading.Lock()
        self.places: dict[str, Places[Job]] = {kind: Places(bounds) for kind, bounds in BOUNDS.items()}
        # whoever changes the book in this process waits for this, so that one after the other does; the database has
        # a process beside do so
        self.turn = threading.Lock()
        self.jobs: OrderedDict[Key, Job] = OrderedDict()
        self.kept = KeptProcesses()
        self.is_ending, self.is_over = False, threading.Event()
        self.watching: threading.Thread | None = None

    def of(
        self, key: Key, work: Callable[..., object], values: tuple[object, ...], then: Then | None = None
    ) -> Job:
        """The work of a key, which is begun where it wasn't; the page waits a moment for its end."""
        return self.begun(key, lambda job: self.do(job, work, values), then)

    def in_turn(self, key: Key, work: Callable[..., object], values: tuple[object, ...], then: Then) -> Job:
        """The same of work that changes the book: while it is done nobody else changes that in this process."""
        return self.begun(key, lambda job: self.do(job, work, values, self.turn), then)

    def here(self, key: Key, compute: Callable[[], object]) -> Job:
        """The same for work that is done in this process, as that of the session's answers."""
        return self.begun(key, lambda job: job.do_here(compute))

    def begun(self, key: Key, do: Callable[[Job], None], then: Then | None = None) -> Job:
        places = self.places.get(str(key[0]))
        with self.lock:
            job = self.jobs.get(key)
            if job is None:
                if places and places.asked_by(WORKER.get()) >= MOST_OF_PERSON:
                    raise Mistake(WebFault.MUCH_WORK.said())
                job = self.jobs[key] = Job(key, then)
                job.is_by_kept = job.kind == LOOKING and self.kept.has(job.of)
                # it is done for whoever asks, who doesn't wait at a page
                context = contextvars.copy_context()
                context.run(UNTIL.set, None)
                try:
                    if places:
                        places.add(job.person, job, lambda job: context.run(do, job))
                    else:
                        threading.Thread(target=context.run, args=(do, job), daemon=True).start()
                    self.watch()
                except RuntimeError as error:
                    job.fail(WebFault.NO_PROCESS.said(error=error))
                self.forget_old()
            job.asked = time.monotonic()
        job.wait_soon()
        return job

    def do(
        self, job: Job, work: Callable[..., object], values: tuple[object, ...],
        turn: contextlib.AbstractContextManager[object] = contextlib.nullcontext(),
    ) -> None:  # fmt: skip
        with turn:
            if job.stopped or (self.is_ending and job.kind != TAKING):
                job.fail(job.stopped or WebFault.WORK_ENDED.said())
                return
            job.do(work, values, self.kept if job.kind == LOOKING else None)

    def watch(self) -> None:
        """Begins to end what takes too long, or what nobody asks for any more. The lock is held."""
        if self.watching is None:
            self.watching = threading.Thread(target=self.end_stale, daemon=True)
            self.watching.start()

    def end_stale(self) -> None:
        while not self.is_over.wait(SECONDS_BETWEEN):
            now = time.monotonic()
            self.kept.end_unused()
            for job in self.not_over():
                if job.started and now - job.started > job.bounds.seconds:
                    job.stop(WebFault.TOOK_LONG.said(minutes=job.bounds.seconds // 60))
                elif job.kind in BOUNDS and job.kind != TAKING and now - job.asked > SECONDS_UNASKED:
                    self.stop(job, WebFault.WORK_ENDED.said())

    def not_over(self) -> list[Job]:
        with self.lock:
            return [job for job in self.jobs.values() if not job.is_over.is_set()]

    def stop(self, job: Job, sentence: str) -> None:
        """Ends it; asked for again it is begun anew."""
        job.stop(sentence)
        with self.lock:
            if self.jobs.get(job.key) is job and job.kind != TAKING:
                del self.jobs[job.key]

    def stop_others(self, key: Key) -> None:
        """Ends what is under way of the same kind on the same thing, which was asked for otherwise."""
        for job in self.not_over():
            if job.of == key[:2] and job.key != key:
                self.stop(job, WebFault.WORK_ENDED.said())

    def found(self, key: Key) -> Job | None:
        with self.lock:
            job = self.jobs.get(key)
            if job:
                job.asked = time.monotonic()
            return job

    def by_id(self, id: str) -> Job | None:
        """One that isn't over."""
        return next((job for job in self.not_over() if job.id == id), None)

    def latest(self, kind: str, of: object = None) -> Job | None:
        """The last one of a kind that is done, and of what its key has last."""
        with self.lock:
            done = [job for job in self.jobs.values() if job.key[0] == kind and job.stage is Stage.DONE]
        return next((job for job in reversed(done) if of is None or job.key[-1] == of), None)

    def under_way(self, kind: str, of: object = None) -> Job | None:
        """One of a kind that isn't over, and of what its key has last."""
        for job in self.not_over():
            if job.kind == kind and (of is None or job.key[-1] == of):
                job.asked = time.monotonic()
                return job
        return None

    def forget(self, key: Key) -> None:
        with self.lock:
            self.jobs.pop(key, None)

    def forget_old(self) -> None:
        """Of those that are over the oldest go first, and of the same of several states all but the last, which may be
        long too. The lock is held."""
        over = [key for key, job in self.jobs.items() if job.is_over.is_set()]
        advice = [key for key in over if key[0] == ADVICE]
        of_states = [key for key in over if key[0] in OF_STATES and self.jobs[key].stage is Stage.DONE]
        last = {(key[0], key[-1]): key for key in of_states}
        earlier = [key for key in of_states if last[key[0], key[-1]] != key]
        for key in {
            *over[: max(0, len(self.jobs) - MOST)], *advice[: max(0, len(advice) - MOST_ADVICE)], *earlier
        }:  # fmt: skip
            del self.jobs[key]

    def end(self) -> None:
        """Ends what is under way, but for work that changes the book: that is waited for."""
        with self.lock:
            self.is_ending = True
        under_way = self.not_over()
        # one may wait for another
        for job in under_way:
            if job.kind != TAKING:
                job.stop(WebFault.WORK_ENDED.said())
        for job in under_way:
            job.is_over.wait()
        self.is_over.set()
        for places in self.places.values():
            places.end()
        self.kept.end()


# Writes the files beside the database after a change, in a process beside, while pages are answered.

SECONDS, PAUSE = 60, 1


class Exports:
    """Writes them where somebody wishes it. Where they can't be written, a later call does."""

    def __init__(self, folder: pathlib.Path, pause: float = PAUSE) -> None:
        self.folder, self.pause = folder, pause
        self.wished, self.is_over = threading.Event(), False
        self.thread = threading.Thread(target=self.write, daemon=True)
        self.thread.start()

    def wish(self) -> None:
        self.wished.set()

    def write(self) -> None:
        while True:
            self.wished.wait()
            # it takes long, and is begun when nobody filed for a while: so it is done once for many changes
            while not self.is_over and self.wished.is_set():
                self.wished.clear()
                self.wished.wait(self.pause)
            if self.is_over:
                return
            try:
                Job(("exports",)).do(refreshed, (self.folder,))
            except Exception as error:
                # the next change wishes them anew
                fault = f"a fault of the front desk itself ({type(error).__name__}: {error})"
                told = f"gudokeyi: {fault}: the exports aren't written"
                print(how_grave(FAULT, sys.stderr) + told, file=sys.stderr)

    def end(self) -> None:
        """Ends behind what is written now."""
        self.is_over = True
        self.wished.set()
        self.thread.join()


def refreshed(folder: pathlib.Path, _: Tell) -> str:
    take_what_is_left(OTHERS.niceness)
    return refresh(folder, SECONDS)
