# blup_scipy.py FILE RECORDS ALPHA: breeding values by Henderson's mixed model equations, in SciPy, from the inverse
# relationship matrix that `./gudokeyi inverse --matrix-market FILE` writes. RECORDS has a line `id,sex,gain` for
# each animal with a record; ALPHA is the residual variance by the additive one. The sex is the fixed effect.
import csv
import sys
from scipy.io import mmread
from scipy.sparse import bmat, csc_matrix
from scipy.sparse.linalg import spsolve
inverse, alpha = mmread(sys.argv[1]).tocsc(), float(sys.argv[3])
ids = open(sys.argv[1] + ".ids", encoding="utf-8").read().splitlines()
rows = {id: row for row, id in enumerate(ids)}
records = list(csv.DictReader(open(sys.argv[2], encoding="utf-8")))
unknown = [record["id"] for record in records if record["id"] not in rows]
if unknown:
    sys.exit(f"{sys.argv[2]} has records of animals that {sys.argv[1]} has no row of: {', '.join(unknown[:12])}")
sexes = sorted({record["sex"] for record in records}, reverse=True)
fixed = csc_matrix([[float(record["sex"] == sex) for sex in sexes] for record in records])
places = range(len(records)), [rows[record["id"]] for record in records]
animals = csc_matrix(([1.0] * len(records), places), shape=(len(records), len(ids)))
gains = [float(record["gain"]) for record in records]
left = bmat([[fixed.T @ fixed, fixed.T @ animals], [animals.T @ fixed, animals.T @ animals + alpha * inverse]])
solved = spsolve(left.tocsc(), [*(fixed.T @ gains), *(animals.T @ gains)])
for name, value in zip([*sexes, *ids], solved):
    print(name, f"{value:.3f}")
