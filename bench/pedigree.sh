#!/bin/sh
# pedigree.sh [PROGRAM] [options]: time and memory of the pedigree's calls; pedigree.py says more.
exec python3 "$(dirname "$0")/pedigree.py" "$@"
