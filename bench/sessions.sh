#!/bin/sh
# sessions.sh HERDBOOK [options]: births asked of a session, and a command's answer beside lists; sessions.py says more.
exec python3 "$(dirname "$0")/sessions.py" "$@"
