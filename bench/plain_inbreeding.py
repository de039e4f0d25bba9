#!/usr/bin/python3
"""A plain program of NumPy and C, for measuring beside: plain_inbreeding.py PEDIGREE OUT

PEDIGREE has a line of titles and lines `id sire dam`, 0 for an unknown parent. Meuwissen and Luo's method (1992) in
doubles, without any check of what is read."""

import ctypes
import pathlib
import subprocess
import sys
import tempfile

import numpy as np

METHOD = r"""
#include <stdlib.h>
/* animals 1 to n, parents before their offspring, 0 for an unknown one, whose F is -1 */
void inbreeding(int n, const int *sire, const int *dam, double *F) {
    double *L = calloc(n + 1, sizeof *L), *D = malloc((n + 1) * sizeof *D);
    int *next = calloc(n + 1, sizeof *next);
    F[0] = -1;
    for (int i = 1; i <= n; i++) {
        D[i] = 0.5 - 0.25 * (F[sire[i]] + F[dam[i]]);
        F[i] = 0;
        if (!sire[i] || !dam[i]) continue;
        if (sire[i] == sire[i - 1] && dam[i] == dam[i - 1]) { F[i] = F[i - 1]; continue; }
        double sum = -1;
        L[i] = 1;
        for (int j = i; j;) {
            int k = j, later = sire[j] > dam[j] ? sire[j] : dam[j], earlier = sire[j] + dam[j] - later;
            double half = L[j] / 2;
            for (int turn = 0; turn < 2; turn++) {
                int parent = turn ? earlier : later;
                if (!parent) break;
                while (next[k] > parent) k = next[k];
                L[parent] += half;
                if (next[k] != parent) { next[parent] = next[k]; next[k] = parent; }
                k = parent;
                if (later == earlier && !turn) { L[parent] += half; break; }
            }
            sum += L[j] * L[j] * D[j];
            L[j] = 0;
            k = j; j = next[j]; next[k] = 0;
        }
        F[i] = sum;
    }
    free(L); free(D); free(next);
}
"""


def compiled() -> ctypes.CDLL:
    folder = pathlib.Path(tempfile.mkdtemp())
    (folder / "method.c").write_text(METHOD)
    subprocess.run(["cc", "-O3", "-shared", "-fPIC", "-o", folder / "method.so", folder / "method.c"], check=True)
    return ctypes.CDLL(str(folder / "method.so"))


def main() -> None:
    table = np.loadtxt(sys.argv[1], dtype="S10", skiprows=1)
    names, numbers = np.unique(np.concatenate([[b"0"], table.ravel()]), return_inverse=True)
    # b"0" comes first, so an unknown parent has the number 0
    ids, sires, dams = numbers[1:].reshape(-1, 3).T
    parents = np.zeros((2, len(names)), np.int64)
    parents[0, ids], parents[1, ids] = sires, dams
    depth = np.zeros(len(names), np.int64)
    while True:
        deeper = np.where(parents.any(0), depth[parents].max(0) + 1, 0)
        if (deeper == depth).all():
            break
        depth = deeper
    order = np.argsort(depth[1:], kind="stable") + 1
    place = np.zeros(len(names), np.int32)
    place[order] = np.arange(1, len(names))
    sorted_parents = [np.concatenate([[0], place[one[order]]]).astype(np.int32) for one in parents]
    found = np.empty(len(names))
    pointers = [one.ctypes.data_as(ctypes.POINTER(ctypes.c_int)) for one in sorted_parents]
    compiled().inbreeding(len(names) - 1, *pointers, found.ctypes.data_as(ctypes.POINTER(ctypes.c_double)))
    with open(sys.argv[2], "w", encoding="ascii") as file:
        file.write("id,decimal\n")
        values = found[place[ids]]
        file.write("".join(f"{id},{value!r}\n" for id, value in zip(table[:, 0].astype(str).tolist(), values.tolist())))


main()
