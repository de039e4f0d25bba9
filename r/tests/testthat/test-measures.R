value_of <- function(found, name) found$value[found$measure == name]

test_that("means are those of the tabular method", {
  needs_program()
  numbers <- drawn(5)
  table <- tabular(numbers)
  some <- 21:30
  found <- measures(numbers, some)
  expect_equal(value_of(found, "animals"), 10)
  expect_equal(value_of(found, "mean_inbreeding"), mean(diag(table)[some] - 1))
  expect_equal(value_of(found, "mean_kinship"), mean(table[some, some]) / 2)
  expect_equal(value_of(found, "founder_genome_equivalents"), 1 / mean(table[some, some]))
  expect_error(measures(numbers, integer()), "name one at least")
})

test_that("founders and ancestors count as in a bottleneck", {
  needs_program()
  # of four founders all genes go through one pair
  bottleneck <- data.frame(
    id = 1:10, sire = c(0, 0, 0, 0, 1, 3, 5, 5, 5, 5), dam = c(0, 0, 0, 0, 2, 4, 6, 6, 6, 6)
  )
  found <- measures(bottleneck, 7:10)
  expect_equal(value_of(found, "founders"), 4)
  expect_equal(value_of(found, "effective_founders"), 4)
  expect_equal(value_of(found, "effective_ancestors"), 2)
  expect_equal(value_of(found, "equivalent_generations"), 2)
  expect_true(is.na(value_of(found, "effective_size")))
})
