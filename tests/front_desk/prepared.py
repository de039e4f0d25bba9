"""Calls of the front desk by copies of a process that has its modules already: each would else read them anew, which
takes longer than most of what is asked. A copy has a folder, variables and streams of its own, and ends with its call.

`python3 prepared.py` is that process. It reads calls as lines of JSON, and answers each with its status."""
from __future__ import annotations

import atexit
import functools
import gc
import importlib
import json
import os
import pathlib
import pkgutil
import random
import signal
import subprocess
import sys
import tempfile
from collections.abc import Mapping, Sequence

TOP = pathlib.Path(__file__).resolve().parent.parent.parent
CALL = str(TOP / "gudokeyi")
LIBRARY = "LD_PRELOAD"
# so long a call may take
SECONDS = 300
# the packages whose modules calls need; those of the pages are left out
PACKAGES = "cli.words", "domain", "engine", "genetics", "ingest", "reconcile", "render", "services", "store"
# what some of these import where they need it
BESIDE = "csv", "openpyxl", "segno", "networkx", "concurrent.futures.thread"


def run(words: Sequence[str], room: pathlib.Path, variables: Mapping[str, str]) -> subprocess.CompletedProcess[bytes]:
    """A call as `subprocess.run` would make it. One that takes too long ends by a signal."""
    process = begun(variables.get(LIBRARY))
    assert process.stdin and process.stdout
    with tempfile.TemporaryDirectory() as streams:
        paths = [f"{streams}/out", f"{streams}/err"]
        call = {"words": [*words], "room": str(room), "variables": {**variables}, "streams": paths}
        process.stdin.write(f"{json.dumps(call)}\n")
        process.stdin.flush()
        status = int(process.stdout.readline())
        out, err = (pathlib.Path(path).read_bytes() for path in paths)
    return subprocess.CompletedProcess([CALL, *words], status, out, err)


@functools.cache
def begun(library: str | None) -> subprocess.Popen[str]:
    """The process, with a library that stands before the C library if one is named. It ends with this one."""
    process = subprocess.Popen(
        [sys.executable, __file__], stdin=subprocess.PIPE, stdout=subprocess.PIPE, text=True,
        env={"PATH": os.environ["PATH"], "LANG": "C"} | ({LIBRARY: library} if library else {}),
    )  # fmt: skip
    atexit.register(process.communicate)
    return process


def prepare() -> None:
    """Imports what calls need."""
    # SQLite is set for several threads, as it is for most words
    sys.argv = [CALL, "import"]
    sys.path[0] = str(TOP / "src")
    for name in PACKAGES:
        package = importlib.import_module(f"gudokeyi.{name}")
        for one in pkgutil.walk_packages(package.__path__, f"{package.__name__}."):
            importlib.import_module(one.name)
    for name in BESIDE:
        importlib.import_module(name)
    # copies don't look whether it is needed
    gc.freeze()


def begin(words: Sequence[str], room: str, variables: Mapping[str, str], streams: Sequence[str]) -> None:
    """Makes this process one that was called so."""
    signal.signal(signal.SIGINT, signal.default_int_handler)
    signal.alarm(SECONDS)
    random.seed()
    os.chdir(room)
    os.environ.clear()
    os.environ.update(variables)
    sys.argv = [CALL, *words]
    new = os.O_WRONLY | os.O_CREAT
    for number, path in enumerate([os.devnull, *streams]):
        opened = os.open(path, new if number else os.O_RDONLY)
        os.dup2(opened, number)
        os.close(opened)
    sys.stdin, sys.stdout, sys.stderr = open(0), open(1, "w"), open(2, "w")


def answer() -> int:
    """The status of the call that this process is."""
    from gudokeyi.cli.main import main

    try:
        return main(sys.argv[1:])
    except SystemExit as ended:
        # as behind help
        if ended.code:
            raise
        return 0


def serve() -> None:
    prepare()
    for line in sys.stdin:
        copy = os.fork()
        if not copy:
            begin(**json.loads(line))
            status = answer()
            sys.stdout.flush()
            sys.stderr.flush()
            # what was prepared isn't taken apart, which would take longer than the call
            os._exit(status)
        print(os.waitstatus_to_exitcode(os.waitpid(copy, 0)[1]), flush=True)


if __name__ == "__main__":
    serve()
