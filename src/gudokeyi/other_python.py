"""Other Pythons than the one that runs: /usr/bin/python3 is asked first, then the path's."""
import os
import sys

NEEDED = (3, 11)
HERE = os.path.dirname(os.path.realpath(__file__))
# the Pythons that were asked before this one, which each hands on to the next in a variable
VARIABLE = "GUDOKEYI_PYTHONS_ASKED"
ASKED = os.environ.pop(VARIABLE, "").split(os.pathsep) + [sys.executable]


def run_under_next() -> None:
    """Begins the call anew under a Python that wasn't asked: where there is one, this doesn't come back. An installed
    package stays with its Python."""
    if os.path.realpath(sys.argv[0]) != os.path.join(os.path.dirname(os.path.dirname(HERE)), "gudokeyi"):
        return
    # what every call would wait for, and hardly one needs
    import shutil

    for python in ("/usr/bin/python3", shutil.which("python3") or ""):
        if python not in ASKED and os.path.exists(python):
            os.environ[VARIABLE] = os.pathsep.join(ASKED + [python])
            os.execv(python, [python, os.path.join(HERE, "start.py")] + sys.argv)
