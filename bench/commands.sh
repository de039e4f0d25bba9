#!/bin/sh
# commands.sh PROGRAM [options]: what each command of a long file costs; commands.py says more.
exec python3 "$(dirname "$0")/commands.py" "$@"
