#!/bin/sh
# workers.sh PROGRAM [options]: what more workers gain by the clock; workers.py says more.
exec python3 "$(dirname "$0")/workers.py" "$@"
