# The measures of a reference population.

# populations of so many animals have an exact number of ancestors; of others so many ancestors are gone through
most_exact <- 5000L
most_ancestors <- 200L
# MacCluer's index goes back so many generations
index_generations <- 5L

#' The measures of a population
#'
#' Inbreeding, kinship, founders, ancestors, generations and the effective size by the individual increase in
#' inbreeding, of some animals in their pedigree. They have the names and meanings that the word `gudokeyi measures`
#' writes; those that need birth days aren't here. All are doubles.
#'
#' @param pedigree A [pedigree()], or a data frame of one.
#' @param among The ids of the animals of the population; all where there are none.
#' @return A data frame with the columns `measure` and `value`. A value that can't be had is `NA`: the effective number
#'   of ancestors of more than 5,000 animals, which has bounds then, and the effective size where inbreeding doesn't
#'   rise.
#' @examplesIf nzchar(Sys.getenv("HERDBOOK")) || nzchar(Sys.which("herdbook"))
#' mrode <- data.frame(id = 1:6, sire = c(NA, NA, 1, 1, 4, 5), dam = c(NA, NA, 2, NA, 3, 2))
#' measures(mrode, among = 5:6)
#' @export
measures <- function(pedigree, among = NULL) {
  pedigree <- pedigree(pedigree)
  if (!is.null(among) && !length(among)) stop("measures need animals: name one at least", call. = FALSE)
  if (!is.null(among)) pedigree <- keep(pedigree, among)
  number <- number_of(pedigree)
  population <- unique(number[places_of(pedigree, among) + 1L])
  sires <- number[pedigree$sires[pedigree$order] + 1L]
  dams <- number[pedigree$dams[pedigree$order] + 1L]
  values <- c(
    inbreeding_measures(pedigree, population), founder_measures(sires, dams, population),
    generation_measures(sires, dams, population), increase_measures(pedigree, sires, dams, population)
  )
  data.frame(measure = names(values), value = unname(values))
}

inbreeding_measures <- function(pedigree, population) {
  inbred <- unname(inbreeding(pedigree))[pedigree$order][population]
  kinships <- kinships_with(less_parents(pedigree), variances_of(elements_of(pedigree)), population)
  kinship <- mean(kinships[population])
  c(
    animals = length(population), inbred_animals = sum(inbred > 0), mean_inbreeding = mean(inbred),
    mean_kinship = kinship, founder_genome_equivalents = 1 / (2 * kinship)
  )
}

# Founders, an unknown parent beside a known one as one of its own (Lacy 1989), and ancestors by what each adds beyond
# those before it (Boichard, Maignel and Verrier 1997).
founder_measures <- function(sires, dams, population) {
  count <- length(sires)
  half_known <- which((sires > 0L) != (dams > 0L))
  place <- seq_len(count) + cumsum(seq_len(count) %in% half_known)
  parents <- matrix(0L, max(place), 2L)
  parents[place, 1L] <- c(0L, place)[sires + 1L]
  parents[place, 2L] <- c(0L, place)[dams + 1L]
  lacks <- place[half_known]
  parents[cbind(lacks, ifelse(parents[lacks, 1L] == 0L, 1L, 2L))] <- lacks - 1L
  weight <- numeric(max(place))
  weight[place[population]] <- 1 / length(population)
  shares <- shares_of(parents, weight)
  founders <- shares[rowSums(parents) == 0L & shares > 0]
  most <- if (length(population) <= most_exact) Inf else most_ancestors
  found <- ancestor_contributions(parents, weight, most)
  c(
    founders = length(founders), effective_founders = 1 / sum(founders^2),
    ancestor_numbers(found, length(founders), is.infinite(most))
  )
}

ancestor_numbers <- function(found, founders, is_exact) {
  if (is_exact) return(c(effective_ancestors = 1 / sum(found^2)))
  left <- 1 - sum(found)
  least <- 1 / (sum(found^2) + left * found[length(found)])
  greatest <- 1 / (sum(found^2) + left^2 / max(1, founders - length(found)))
  exact <- if (abs(greatest - least) < 1e-9) least else NA
  c(effective_ancestors = exact, effective_ancestors_least = least, effective_ancestors_greatest = greatest)
}

halves_of <- function(parents) {
  count <- nrow(parents)
  known <- parents > 0L
  Matrix::tril(Matrix::sparseMatrix(
    c(seq_len(count), row(parents)[known]), c(seq_len(count), parents[known]),
    x = rep(c(1, -0.5), c(count, sum(known))), dims = c(count, count)
  ))
}

shares_of <- function(parents, weight) as.numeric(Matrix::solve(Matrix::t(halves_of(parents)), weight))

# The marginal contributions, the greatest first.
ancestor_contributions <- function(parents, weight, most) {
  taken <- numeric(nrow(parents))
  found <- numeric()
  while (length(found) < most) {
    less <- halves_of(parents)
    shares <- as.numeric(Matrix::solve(Matrix::t(less), weight))
    adds <- shares * (1 - as.numeric(Matrix::solve(less, taken)))
    best <- which.max(adds)
    if (adds[best] < 1e-14) break
    found <- c(found, adds[best])
    parents[best, ] <- 0L
    taken[best] <- 1
  }
  found
}

# Of each animal the equivalent complete generations, the generations that are known in full, and the greatest one.
generations_of <- function(sires, dams) {
  equivalent <- full <- greatest <- numeric(length(sires))
  for (animal in seq_along(sires)) {
    parents <- c(sires[animal], dams[animal])
    parents <- parents[parents > 0L]
    if (length(parents)) {
      equivalent[animal] <- sum(equivalent[parents] + 1) / 2
      greatest[animal] <- max(greatest[parents]) + 1
    }
    if (length(parents) == 2L) full[animal] <- min(full[parents]) + 1
  }
  list(equivalent = equivalent, full = full, greatest = greatest)
}

generation_measures <- function(sires, dams, population) {
  found <- generations_of(sires, dams)
  c(
    equivalent_generations = mean(found$equivalent[population]), full_generations = mean(found$full[population]),
    greatest_generations = mean(found$greatest[population]),
    maccluer_index = mean(maccluer_indices(sires, dams)[population])
  )
}

# Of each animal the harmonic mean of its parents' completeness (MacCluer et al. 1983).
maccluer_indices <- function(sires, dams) {
  known <- total <- rep(1, length(sires))
  for (generation in seq_len(index_generations - 1L)) {
    known <- (c(0, known)[sires + 1L] + c(0, known)[dams + 1L]) / 2
    total <- total + known
  }
  of_sire <- c(0, total)[sires + 1L]
  of_dam <- c(0, total)[dams + 1L]
  ifelse(of_sire + of_dam > 0, 2 * of_sire * of_dam / (of_sire + of_dam) / index_generations, 0)
}

# The individual increase in inbreeding of animals of more than one equivalent generation (Gutierrez et al. 2009).
increase_measures <- function(pedigree, sires, dams, population) {
  equivalent <- generations_of(sires, dams)$equivalent[population]
  outbred <- 1 - unname(inbreeding(pedigree))[pedigree$order][population]
  increase <- (1 - outbred^(1 / (equivalent - 1)))[equivalent > 1]
  rate <- if (length(increase)) mean(increase) else NA
  size <- if (isTRUE(rate > 0)) 1 / (2 * rate) else NA
  error <- if (length(increase) > 1L) 2 * size^2 * stats::sd(increase) / sqrt(length(increase)) else NA
  c(rate_of_inbreeding = rate, effective_size = size, effective_size_standard_error = error)
}
