"""What lets a call of the program be refused from outside."""
from __future__ import annotations

import pathlib
import subprocess

import pytest

from outside.runs import TOP

INSTALL = "install gcc and libc6-dev (apt-get install gcc libc6-dev) and call this again"


@pytest.fixture(scope="session")
def refuser(tmp_path_factory: pytest.TempPathFactory) -> pathlib.Path:
    """What `refuse.c` is made to, for the variable LD_PRELOAD."""
    made = tmp_path_factory.mktemp("refuser") / "refuse.so"
    words = ["cc", "-O1", "-shared", "-fPIC", "-o", str(made), str(TOP / "tests/refuse.c"), "-ldl"]
    try:
        subprocess.run(words, check=True)
    except OSError:
        pytest.fail(f"there is no C compiler cc, which tests/refuse.c needs: {INSTALL}", pytrace=False)
    except subprocess.CalledProcessError:
        pytest.fail(f"the C compiler cc can't make tests/refuse.c: {INSTALL}", pytrace=False)
    return made
