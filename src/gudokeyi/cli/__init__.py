"""The command line. Some of its words read or write the book by several threads; others wait for nothing that these
need."""
import gc
import sys

# most of what a call makes is needed to its end, and so are the modules: looking for what isn't comes rarely
gc.set_threshold(500_000)

SEVERAL = {
    "mating", "import", "take", "file", "birth", "parents", "transfer", "exit", "undo", "restore", "open", "serve",
}  # fmt: skip

if SEVERAL.intersection(sys.argv[1:2]):
    from gudokeyi.process import without_statistics

    without_statistics()
