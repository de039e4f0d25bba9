# The inverse relationship matrix in R, sparse, from what `./gudokeyi inverse --matrix-market FILE` writes:
# Rscript inverse.R FILE
library(Matrix)
file <- commandArgs(TRUE)[1]
inverse <- as(readMM(file), "CsparseMatrix")
ids <- readLines(paste0(file, ".ids"), encoding = "UTF-8")
dimnames(inverse) <- list(ids, ids)
print(tail(inverse[, tail(ids, 3)], 3))
