# The kinship of some animals in R, from the inverse relationship matrix that `./gudokeyi inverse --matrix-market
# FILE` writes: Rscript kinship.R FILE ID.. Kinship is half of the relationship.
library(Matrix)
words <- commandArgs(TRUE)
inverse <- as(readMM(words[1]), "CsparseMatrix")
ids <- readLines(paste0(words[1], ".ids"), encoding = "UTF-8")
named <- match(words[-1], ids)
if (anyNA(named)) stop(words[1], " has no row of: ", toString(words[-1][is.na(named)]))
wanted <- sparseMatrix(named, seq_along(named), x = 1, dims = c(length(ids), length(named)))
kinship <- as.matrix(solve(inverse, wanted))[named, , drop = FALSE] / 2
dimnames(kinship) <- list(ids[named], ids[named])
print(kinship)
