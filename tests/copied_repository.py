"""A copy of the repository in which crates are built by a stand-in for rt.

The repository's Python and crates.txt are copied to a folder in which each crate has one short source. The stand-in
proves nothing: it notes when a crate begins and ends, and leaves a library or a program as rt does.
"""
from __future__ import annotations

import contextlib
import os
import pathlib
import pty
import shutil
import signal
import subprocess
from collections.abc import Sequence

from building.crates import TOP, closure, lines_of, named

PROGRAM = "herdbook"
LINES = lines_of(TOP / "crates.txt")
CRATES = closure(LINES, PROGRAM)
BELOW = {name: named(LINES[name]) & CRATES for name in CRATES}
SECONDS = 180

# What stands in for rt. The file NAME.seconds says how long a crate takes, and with NAME.fails it isn't proved.
STAND_IN = """#!/bin/sh
[ "$1" = version ] && echo "a kit" && exit
name=${PWD##*/}
note() {
    echo "$1 $name" >>"$NOTES/log"
}
note begin
: >"$NOTES/$$.run"
for other in $(sed 's/[: ].*//' ../../crates.txt); do
    [ "$other" = "$name" ] || [ -e "../$other/out/rlib/$other.rlib" ] || note "lacks $other"
done
[ -e "$NOTES/$name.seconds" ] && read seconds <"$NOTES/$name.seconds"
trap 'kill $!; exit 1' INT TERM
sleep "${seconds:-0.05}" >/dev/null 2>&1 &
wait $!
[ -e "$NOTES/$name.fails" ] && echo "a contract isn't met" && exit 1
if [ "$1" = run ]; then
    mkdir -p out
    printf '#!/bin/sh\\necho "$@"\\n' >"out/$name"
    chmod 755 "out/$name"
else
    mkdir -p "out/rlib/$name.rlib"
fi
note end
echo "logic=proved functions=7 sum=1"
"""


# The machine that the copy takes this one for.
FOUR_PROCESSORS = """
os.sched_getaffinity = lambda process: range(4)
free_memory = lambda: 24 * 10**9
"""


class Repository:
    """A copy of the repository with short sources, and the stand-in before it on the path."""

    def __init__(self, room: pathlib.Path) -> None:
        self.top, self.notes, self.rooms = room / "repository", room / "notes", room / "rooms"
        self.no_python = room / "no python"
        for folder in (self.notes, self.rooms, room / "bin", self.no_python):
            folder.mkdir(parents=True)
        (self.no_python / "python3").write_text("#!/bin/sh\nexit 99\n", encoding="utf-8")
        (self.no_python / "python3").chmod(0o755)
        shutil.copytree(TOP / "building", self.top / "building", ignore=shutil.ignore_patterns("__pycache__"))
        with open(self.top / "building/machine.py", "a", encoding="utf-8") as machine:
            machine.write(FOUR_PROCESSORS)
        for file in ("build.py", "crates.txt", "herdbook"):
            shutil.copy(TOP / file, self.top / file)
        for name in CRATES:
            source = self.top / "crates" / name / "src" / ("main.rt" if name == PROGRAM else "lib.rt")
            source.parent.mkdir(parents=True)
            source.write_text("// a crate\n", encoding="utf-8")
        (room / "bin/rt").write_text(STAND_IN, encoding="utf-8")
        (room / "bin/rt").chmod(0o755)
        path = f"{room / 'bin'}:{os.environ['PATH']}"
        known = {
            "PATH": path,
            "NOTES": str(self.notes),
            "TMPDIR": str(self.rooms),
            "XDG_CACHE_HOME": str(room / "cache"),
        }
        self.env = {**os.environ, **known}

    def begin(self, *words: str, at: pathlib.Path | None = None) -> subprocess.Popen[str]:
        return subprocess.Popen(
            words,
            cwd=at,
            env=self.env,
            stdout=subprocess.PIPE,
            stderr=subprocess.PIPE,
            text=True,
            start_new_session=True,
            preexec_fn=heeds_signals,
        )

    def begin_program(self) -> subprocess.Popen[str]:
        """The program, once it is built anew."""
        built = 'python3 "$0/build.py" herdbook || exit 1; exec "$0/herdbook" is built'
        return self.begin("sh", "-c", built, str(self.top))

    def call(self) -> tuple[int, str, str]:
        """The status of a call, and what it wrote."""
        return ended(self.begin_program())

    def call_without_building(self) -> tuple[int, str, str]:
        """That of a call of the program alone."""
        return ended(self.begin(str(self.top / "herdbook"), "is", "built"))

    def call_without_python(self) -> tuple[int, str, str]:
        """The same, where a call of Python ends with a fault."""
        env, self.env = self.env, {**self.env, "PATH": f"{self.no_python}:{self.env['PATH']}"}
        try:
            return self.call_without_building()
        finally:
            self.env = env

    def call_at_terminal(self, answer: str, script: str, *words: str) -> tuple[int, str]:
        """The status of a script at a terminal at which its question is answered, and all that it tells."""
        return answered(self.top / script, words, self.env, answer)

    def write(self, name: str, text: str) -> pathlib.Path:
        (self.top / name).parent.mkdir(parents=True, exist_ok=True)
        (self.top / name).write_text(text, encoding="utf-8")
        return self.top / name

    def add_line(self, line: str) -> None:
        with open(self.top / "crates.txt", "a", encoding="utf-8") as lines:
            lines.write(f"{line}\n")

    def change_line(self, name: str) -> None:
        """Lets a crate stand on one more of the kit's."""
        text = (self.top / "crates.txt").read_text(encoding="utf-8")
        self.write("crates.txt", text.replace(LINES[name], f"{LINES[name]} anyhow"))

    def noted(self) -> list[tuple[str, str]]:
        """What the stand-in noted since the last look: `begin`, `end` or what was missing, and the crate."""
        log = self.notes / "log"
        lines = log.read_text(encoding="utf-8").splitlines() if log.exists() else []
        log.unlink(missing_ok=True)
        return [(what, name) for what, _, name in (line.rpartition(" ") for line in lines)]

    def has_begun(self, name: str) -> bool:
        """Whether the stand-in noted since the last look that a crate begins."""
        log = self.notes / "log"
        return log.exists() and f"begin {name}\n" in log.read_text(encoding="utf-8")

    def kept(self) -> set[str]:
        """The crates whose libraries are kept."""
        return {name for name in CRATES if (self.top / "crates" / name / "out/rlib").exists()}

    def under_way(self) -> bool:
        """Whether a run of the stand-in is under way."""
        return any(pathlib.Path("/proc", it.stem).exists() for it in self.notes.glob("*.run"))


def heeds_signals() -> None:
    """Has a new process end by each signal, also where this one was told to ignore it."""
    for it in (signal.SIGINT, signal.SIGTERM, signal.SIGHUP):
        signal.signal(it, signal.SIG_DFL)


def ended(call: subprocess.Popen[str]) -> tuple[int, str, str]:
    """The status of a call, and what it wrote. One that takes too long is killed."""
    try:
        out, err = call.communicate(timeout=SECONDS)
    except subprocess.TimeoutExpired:
        with contextlib.suppress(ProcessLookupError):
            os.killpg(call.pid, signal.SIGKILL)
        raise
    return call.returncode, out, err


def answered(script: pathlib.Path, words: Sequence[str], env: dict[str, str], answer: str) -> tuple[int, str]:
    """The status of a script at a terminal of its own, at which its question is answered, and all that it tells."""
    call, terminal = pty.fork()
    if not call:
        os.execve(script, [str(script), *words], env)
    told = b""
    with contextlib.suppress(OSError):
        while more := os.read(terminal, 4096):
            told += more
            if more.endswith(b"] "):
                os.write(terminal, answer.encode())
    os.close(terminal)
    return os.waitstatus_to_exitcode(os.waitpid(call, 0)[1]), told.decode()
