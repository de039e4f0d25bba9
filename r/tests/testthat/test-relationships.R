test_that("coefficients, relationships and kinships are those of the tabular method", {
  needs_program()
  for (seed in 1:6) {
    numbers <- drawn(seed)
    found <- shuffled(numbers)
    made <- pedigree(found$frame)
    table <- tabular(numbers)
    expect_equal(unname(inbreeding(made, found$names)), diag(table) - 1, tolerance = 1e-15)
    expect_equal(unname(relationships(made, found$names)), table, tolerance = 1e-15)
    expect_equal(unname(kinship(made, found$names, found$names[2:3])), table[, 2:3] / 2, tolerance = 1e-15)
    expect_equal(unname(mean_kinship(made)[found$names]), rowMeans(table) / 2, tolerance = 1e-13)
    young <- found$names[21:30]
    expect_equal(unname(mean_kinship(made, young)[found$names]), rowMeans(table[, 21:30]) / 2, tolerance = 1e-13)
    kept <- keep(made, young)
    expect_equal(inbreeding(kept, young), inbreeding(made, young))
    parents <- c(0, diag(table))
    variances <- 1 - (parents[numbers$sire + 1] + parents[numbers$dam + 1]) / 4
    expect_equal(unname(mendelian_sampling_variances(made, found$names)), variances, tolerance = 1e-14)
  }
})

test_that("the inverse times the matrix is the unit matrix", {
  needs_program()
  numbers <- drawn(3)
  made <- pedigree(shuffled(numbers)$frame)
  whole <- inverse(made)
  expect_s4_class(whole, "dsCMatrix")
  expect_equal(rownames(whole), made$ids)
  expect_equal(unname(as.matrix(whole %*% relationships(made))), diag(30), tolerance = 1e-9)
  half <- half_inverse(made)
  expect_equal(as.matrix(Matrix::crossprod(half)), as.matrix(whole), tolerance = 1e-12)
})

test_that("Mrode's examples are as published", {
  needs_program()
  expect_equal(inbreeding(mrode, exact = TRUE), c("1" = "0", "2" = "0", "3" = "0", "4" = "0", "5" = "1/8", "6" = "1/8"))
  expect_equal(unname(diag(as.matrix(inverse(mrode)))), c(11 / 6, 61 / 30, 5 / 2, 11 / 6, 38 / 15, 32 / 15))
  of_five <- matrix(c("9/8", "11/16"), 1, dimnames = list("5", c("5", "6")))
  expect_equal(relationships(mrode, 5, 5:6, exact = TRUE), of_five)
  expect_equal(kinship(mrode, c(1, 1, 6), 5, exact = TRUE)[, 1], c("1" = "1/4", "1" = "1/4", "6" = "11/32"))
  as_frame <- as.data.frame(pedigree(mrode))
  expect_equal(as_frame$inbreeding, c(0, 0, 0, 0, 1 / 8, 1 / 8))
  expect_equal(as_frame$sire, c(NA, NA, "1", "1", "4", "5"))
})

test_that("variances near nothing aren't lost", {
  needs_program()
  selfed <- data.frame(id = 1:61, sire = 0:60, dam = 0:60)
  expect_equal(unname(mendelian_sampling_variances(selfed, 61)), 2^-60, tolerance = 1e-15)
  expect_equal(unname(inverse(selfed)[61, 61]), 2^60, tolerance = 1e-15)
})

test_that("more pairs than one call has are asked for in several", {
  needs_program()
  count <- 2100
  many <- data.frame(id = 1:count, sire = c(0, rep(1, count - 1)), dam = 0)
  found <- relationships(many)
  expect_equal(found[1, 2:count], rep(0.5, count - 1), ignore_attr = TRUE)
  expect_equal(sum(found), count + (count - 1) * 2 * 0.5 + (count - 1) * (count - 2) * 0.25)
})
