# What is had of the program's coefficients.

#' Coefficients of inbreeding
#'
#' The coefficient of each animal, and its Mendelian sampling variance as a part of the additive variance. Unknown
#' parents are unrelated and not inbred. Both come from the program as fractions, which R divides once.
#'
#' @param pedigree A [pedigree()], or a data frame of one.
#' @param ids The ids of some animals; all where there are none.
#' @param exact Are the fractions given as texts?
#' @return A vector with the ids as names, in the order of `ids`, else of the pedigree: its rows, and behind them the
#'   parents without a row.
#' @examplesIf nzchar(Sys.getenv("HERDBOOK")) || nzchar(Sys.which("herdbook"))
#' mrode <- data.frame(id = 1:6, sire = c(NA, NA, 1, 1, 4, 5), dam = c(NA, NA, 2, NA, 3, 2))
#' inbreeding(mrode)
#' mrode$F <- inbreeding(mrode, mrode$id)
#' @export
inbreeding <- function(pedigree, ids = NULL, exact = FALSE) {
  pedigree <- pedigree(pedigree)
  answer <- ask(pedigree, "inbreeding", list(NULL, "", NULL))[[2]]
  by_id(pedigree, if (exact) answer else as_double(answer), ids)
}

#' @rdname inbreeding
#' @export
mendelian_sampling_variances <- function(pedigree, ids = NULL) {
  pedigree <- pedigree(pedigree)
  by_id(pedigree, variances_of(elements_of(pedigree)), ids)
}

# Values by number, as a vector with ids.
by_id <- function(pedigree, values, ids) {
  found <- values
  found[pedigree$order] <- values
  names(found) <- pedigree$ids
  found[places_of(pedigree, ids)]
}

# What each animal adds to the inverse, by numbers.
elements_of <- function(pedigree) {
  names <- c("animal", "row", "column", "value")
  stats::setNames(ask(pedigree, "inverse", list(0L, 0L, 0L, "")), names)
}

# By number: an animal adds 1/d to its own element.
variances_of <- function(elements) {
  own <- elements$animal == elements$row & elements$animal == elements$column
  fractions <- elements$value[own]
  above <- sub("^[^/]*/?", "", fractions)
  above[!nzchar(above)] <- "1"
  as.numeric(above) / as.numeric(sub("/.*", "", fractions))
}

#' Relationships and kinships
#'
#' The entries of the numerator relationship matrix of some animals with others, or with one another; kinships are
#' halves of them. `mean_kinship` has each animal's mean kinship with some animals, itself too if it is one of these;
#' it is summed in doubles of the program's coefficients.
#'
#' @param pedigree A [pedigree()], or a data frame of one.
#' @param ids,with_ids The ids of some animals; all where there are none.
#' @param exact Are the fractions given as texts?
#' @param among The ids of the animals of the mean; all where there are none.
#' @return A matrix with a row for each of `ids` and a column for each of `with_ids`; for `mean_kinship` a vector with
#'   ids as names.
#' @examplesIf nzchar(Sys.getenv("HERDBOOK")) || nzchar(Sys.which("herdbook"))
#' mrode <- data.frame(id = 1:6, sire = c(NA, NA, 1, 1, 4, 5), dam = c(NA, NA, 2, NA, 3, 2))
#' relationships(mrode, 5:6)
#' kinship(mrode, 5, 6, exact = TRUE)
#' mean_kinship(mrode)
#' @export
relationships <- function(pedigree, ids = NULL, with_ids = NULL, exact = FALSE) {
  texts <- entries_of(pedigree(pedigree), ids, with_ids)
  if (exact) texts else matrix(as_double(texts), nrow(texts), dimnames = dimnames(texts))
}

#' @rdname relationships
#' @export
kinship <- function(pedigree, ids = NULL, with_ids = NULL, exact = FALSE) {
  texts <- entries_of(pedigree(pedigree), ids, with_ids)
  texts[] <- halved(texts)
  if (exact) texts else matrix(as_double(texts), nrow(texts), dimnames = dimnames(texts))
}

entries_of <- function(pedigree, ids, with_ids) {
  rows <- places_of(pedigree, ids)
  columns <- if (is.null(with_ids)) rows else places_of(pedigree, with_ids)
  kept <- ancestry(pedigree, c(rows, columns))
  part <- kept_of(pedigree, kept)
  number <- number_of(part)[-1]
  one <- unique(rows)
  other <- unique(columns)
  is_turned <- length(other) < length(one)
  answered <- if (is_turned) pairs_of(part, number[match(other, kept)], number[match(one, kept)]) else
    pairs_of(part, number[match(one, kept)], number[match(other, kept)])
  if (is_turned) answered <- t(answered)
  matrix(
    answered[match(rows, one), match(columns, other)], length(rows), length(columns),
    dimnames = list(pedigree$ids[rows], pedigree$ids[columns])
  )
}

# The fractions of pairs, by numbers.
pairs_of <- function(pedigree, rows, columns) {
  found <- matrix("", length(rows), length(columns))
  for (some in chunks(length(rows), most_rows)) for (others in chunks(length(columns), most_columns)) {
    words <- c("relationships", rows[some], "--with", columns[others])
    found[some, others] <- matrix(ask(pedigree, words, list(NULL, NULL, ""))[[3]], length(some), byrow = TRUE)
  }
  found
}

chunks <- function(count, most) split(seq_len(count), (seq_len(count) - 1L) %/% most)

#' @rdname relationships
#' @export
mean_kinship <- function(pedigree, among = NULL) {
  pedigree <- pedigree(pedigree)
  number <- number_of(pedigree)[-1]
  population <- unique(number[places_of(pedigree, among)])
  by_id(pedigree, kinships_with(less_parents(pedigree), variances_of(elements_of(pedigree)), population), NULL)
}

# The mean kinship of each animal with a population, by numbers (Colleau 2002).
kinships_with <- function(less, variances, population) {
  share <- numeric(length(variances))
  share[population] <- 1 / length(population)
  passed <- Matrix::solve(Matrix::t(less), share)
  as.numeric(Matrix::solve(less, as.numeric(passed) * variances)) / 2
}

# I - P by numbers: P has the half of each known parent, and of a selfed animal both halves.
less_parents <- function(pedigree) {
  count <- length(pedigree$ids)
  number <- number_of(pedigree)
  parents <- number[c(pedigree$sires[pedigree$order], pedigree$dams[pedigree$order]) + 1L]
  animals <- rep(seq_len(count), 2L)[parents > 0L]
  found <- Matrix::sparseMatrix(
    c(seq_len(count), animals), c(seq_len(count), parents[parents > 0L]),
    x = rep(c(1, -0.5), c(count, length(animals))), dims = c(count, count)
  )
  Matrix::tril(found)
}

#' The inverse of the numerator relationship matrix
#'
#' `inverse` sums up in doubles what the program says that each animal adds, by Henderson's rules with inbreeding.
#' `half_inverse` is the matrix H for which the inverse is H'H.
#'
#' @param pedigree A [pedigree()], or a data frame of one.
#' @return A sparse matrix of the package Matrix, with ids as names of its rows and columns, in the order of the
#'   pedigree.
#' @examplesIf nzchar(Sys.getenv("HERDBOOK")) || nzchar(Sys.which("herdbook"))
#' mrode <- data.frame(id = 1:6, sire = c(NA, NA, 1, 1, 4, 5), dam = c(NA, NA, 2, NA, 3, 2))
#' inverse(mrode)
#' @export
inverse <- function(pedigree) {
  pedigree <- pedigree(pedigree)
  elements <- elements_of(pedigree)
  row <- pedigree$order[elements$row]
  column <- pedigree$order[elements$column]
  Matrix::sparseMatrix(
    pmax(row, column), pmin(row, column), x = as_double(elements$value), symmetric = TRUE,
    dims = rep(length(pedigree$ids), 2L), dimnames = list(pedigree$ids, pedigree$ids)
  )
}

#' @rdname inverse
#' @export
half_inverse <- function(pedigree) {
  pedigree <- pedigree(pedigree)
  variances <- variances_of(elements_of(pedigree))
  number <- number_of(pedigree)[-1]
  found <- Matrix::Diagonal(x = 1 / sqrt(variances)) %*% less_parents(pedigree)
  found <- methods::as(found, "generalMatrix")[number, number]
  dimnames(found) <- list(pedigree$ids, pedigree$ids)
  found
}
