"""The process beside the server: `python -m gudokeyi.web.worker_process NICENESS` does the work that it reads from
standard input."""
from __future__ import annotations

import gc
import os
import resource
import sys

from gudokeyi.process import is_for_one_change, take_what_is_left, with_cells_of_any_length, with_short_turns
from gudokeyi.web.worker_processes import work_in_process

# so much memory it may use
MOST_BYTES = 3 << 30
# what a look makes of a large sheet is needed to its end: to look for what isn't, as often as Python does by itself,
# takes 2 of 6 seconds at 60,000 rows; it is looked for behind each work
OBJECTS, ROUNDS = 500_000, 1000

if __name__ == "__main__":
    resource.setrlimit(resource.RLIMIT_AS, (MOST_BYTES, resource.getrlimit(resource.RLIMIT_AS)[1]))
    gc.set_threshold(OBJECTS, ROUNDS, ROUNDS)
    with_short_turns()
    with_cells_of_any_length()
    is_for_one_change()
    take_what_is_left(int(sys.argv[1]))
    # whatever the work prints stays out of the messages
    with os.fdopen(os.dup(1), "wb") as messages:
        os.dup2(2, 1)
        work_in_process(sys.stdin.buffer, messages)
