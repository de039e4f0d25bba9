# Breeding values by Henderson's mixed model equations in R: Rscript blup.R FILE RECORDS ALPHA, where FILE is the
# inverse relationship matrix that `./gudokeyi inverse --matrix-market FILE` writes, RECORDS has a line
# `id,sex,gain` for each animal with a record, and ALPHA is the residual variance by the additive one.
library(Matrix)
words <- commandArgs(TRUE)
inverse <- as(readMM(words[1]), "CsparseMatrix")
ids <- readLines(paste0(words[1], ".ids"), encoding = "UTF-8")
records <- read.csv(words[2], colClasses = c(id = "character"))
lacking <- setdiff(records$id, ids)
if (length(lacking)) stop(words[2], " has records of animals that ", words[1], " has no row of: ", toString(lacking))
fixed <- sparse.model.matrix(~ 0 + sex, records)
animals <- sparseMatrix(seq_len(nrow(records)), match(records$id, ids), x = 1, dims = c(nrow(records), length(ids)))
left <- rbind(cbind(crossprod(fixed), crossprod(fixed, animals)),
              cbind(crossprod(animals, fixed), crossprod(animals) + as.numeric(words[3]) * inverse))
solved <- solve(left, rbind(crossprod(fixed, records$gain), crossprod(animals, records$gain)))
print(setNames(round(as.vector(solved), 3), c(colnames(fixed), ids)))
