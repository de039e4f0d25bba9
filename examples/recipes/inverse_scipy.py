# inverse_scipy.py FILE: the inverse relationship matrix in SciPy, sparse, from what
# `./gudokeyi inverse --matrix-market FILE` writes
import sys
from scipy.io import mmread
inverse = mmread(sys.argv[1]).tocsr()
ids = open(sys.argv[1] + ".ids", encoding="utf-8").read().splitlines()
for row in range(max(0, len(ids) - 3), len(ids)):
    print(ids[row], *(f"{inverse[row, column]:.6f}" for column in range(max(0, len(ids) - 3), len(ids))))
