#!/bin/sh
# office.sh PROGRAM HERDBOOK [options]: births at desks beside inspectors; office.py says more.
exec python3 "$(dirname "$0")/office.py" "$@"
