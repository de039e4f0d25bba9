"""Starts the front desk of a clone: `./gudokeyi` runs this with its own path and the words of the call.

Pythons that are too old come here too, so this and `other_python` are written in what all of them read."""
import os
import sys

# the call as it was written, and the folder that holds the package in place of that of this script
sys.argv = sys.argv[1:]
sys.path[0] = os.path.dirname(os.path.dirname(os.path.realpath(__file__)))

from gudokeyi.other_python import NEEDED, run_under_next  # noqa: E402

if sys.version_info < NEEDED:
    run_under_next()
    sys.exit(
        "gudokeyi: this needs Python 3.11 or later, which neither /usr/bin/python3 nor the path's is: as root "
        "`apt install python3` on Debian 12 or newer"
    )

from gudokeyi.cli.main import main  # noqa: E402
from gudokeyi.process import end  # noqa: E402

end(main(sys.argv[1:]))
