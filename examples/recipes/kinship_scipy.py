# kinship_scipy.py FILE ID..: the kinship of each pair of animals, in SciPy, from the inverse relationship matrix that
# `./gudokeyi inverse --matrix-market FILE` writes. Kinship is half of the relationship.
import sys
import numpy
from scipy.io import mmread
from scipy.sparse.linalg import splu
# the matrix is symmetric: in this order of its rows the factor of a large pedigree stays sparse
inverse = splu(mmread(sys.argv[1]).tocsc(), "MMD_AT_PLUS_A", diag_pivot_thresh=0, options={"SymmetricMode": True})
ids = open(sys.argv[1] + ".ids", encoding="utf-8").read().splitlines()
unknown = [id for id in sys.argv[2:] if id not in ids]
if unknown:
    sys.exit(f"{sys.argv[1]} has no row of: {', '.join(unknown)}")
named = [ids.index(id) for id in sys.argv[2:]]
# the columns of the relationship matrix that are named, and no others
wanted = numpy.zeros((len(ids), len(named)))
wanted[named, range(len(named))] = 1
columns = inverse.solve(wanted)
for row, column in ((row, column) for row in range(len(named)) for column in range(row, len(named))):
    print(ids[named[row]], ids[named[column]], f"{columns[named[row], column] / 2:.6f}")
