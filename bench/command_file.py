"""Command files to measure with, each made once by generate.py and kept in a folder."""

from __future__ import annotations

import os
import subprocess
import sys
import tempfile

HERE = os.path.dirname(os.path.abspath(__file__))


def work_folder() -> str:
    """Where the files are kept, unless a call says it."""
    return os.environ.get("BENCH_WORK", os.path.join(tempfile.gettempdir(), "herdbook-bench"))


def limit_words(animals: int, commands: int) -> list[str]:
    """The words by which the program takes so many, where it doesn't by itself."""
    if animals <= 60_000 and commands <= 1_000_000:
        return []
    return ["--limit-animals", str(animals), "--limit-steps", str(commands)]


def command_file(work: str, name: str, *words: object) -> str:
    """The path of the file of that name, made with these words of generate.py where it isn't there yet."""
    made = os.path.join(work, name)
    if not os.path.exists(made):
        command = [sys.executable, os.path.join(HERE, "generate.py"), *map(str, words)]
        with open(made + ".part", "wb") as it:
            subprocess.run(command, check=True, stdout=it, stderr=subprocess.DEVNULL)
        os.rename(made + ".part", made)
    return made
