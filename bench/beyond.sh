#!/bin/sh
# beyond.sh PROGRAM [options]: a herd book program beside native ones on large books; beyond.py says more.
exec python3 "$(dirname "$0")/beyond.py" "$@"
