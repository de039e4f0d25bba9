mrode <- data.frame(id = 1:6, sire = c(NA, NA, 1, 1, 4, 5), dam = c(NA, NA, 2, NA, 3, 2))

needs_program <- function() {
  skip_if(inherits(try(herdbook_path(), silent = TRUE), "try-error"), "the program herdbook isn't there")
}

# A drawn pedigree: selfing, both roles and half-known parents, as numbers, parents first.
drawn <- function(seed, count = 30) {
  set.seed(seed)
  parent <- function(at) if (at > 3 && runif(1) > 0.15) sample(max(1, at - 9):(at - 1), 1) else 0
  sires <- vapply(seq_len(count), parent, 0)
  dams <- ifelse(runif(count) < 0.15, sires, vapply(seq_len(count), parent, 0))
  data.frame(id = seq_len(count), sire = sires, dam = dams)
}

# The tabular method.
tabular <- function(numbers) {
  count <- nrow(numbers)
  table <- matrix(0, count + 1, count + 1)
  for (at in seq_len(count)) {
    sire <- numbers$sire[at] + 1
    dam <- numbers$dam[at] + 1
    table[at + 1, ] <- table[, at + 1] <- (table[sire, ] + table[dam, ]) / 2
    table[at + 1, at + 1] <- 1 + table[sire, dam] / 2
  }
  table[-1, -1]
}

# The same animals in any order, with other ids.
shuffled <- function(numbers) {
  names <- paste0("DE", sample(1000:9999, nrow(numbers)))
  frame <- data.frame(id = names, sire = c(NA, names)[numbers$sire + 1], dam = c(NA, names)[numbers$dam + 1])
  list(names = names, frame = frame[sample(nrow(frame)), ])
}
