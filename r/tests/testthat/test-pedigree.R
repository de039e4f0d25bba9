test_that("columns are found by usual titles, by given ones, or as the three that there are", {
  usual <- data.frame(weight = 1:3, Indiv = c("a", "b", "c"), Dad = c("", "a", "b"), Mum = c("0", "0", "a"))
  expect_equal(pedigree(usual)$sires, c(0, 1, 2))
  names(usual) <- c("w", "x", "y", "z")
  expect_equal(pedigree(usual, columns = c(id = "x", sire = "y", dam = "z"))$dams, c(0, 0, 1))
  expect_equal(pedigree(usual[-1])$dams, c(0, 0, 1))
  expect_error(pedigree(usual), "no columns for id, sire and dam are found among w, x, y, z: name them by columns")
  expect_error(pedigree(usual, columns = c(id = "q")), "no column is named q")
  expect_error(pedigree(1:3), "data is no data frame")
})

test_that("ids are compared as texts", {
  as_factors <- data.frame(id = c("5", "100000"), sire = factor(c(NA, "5")), dam = c(NA, NA))
  expect_equal(pedigree(as_factors)$sires, c(0, 1))
  as_numbers <- data.frame(id = c("5", "100000", "7"), sire = c(NA, 5, 1e5), dam = NA)
  expect_equal(pedigree(as_numbers)$sires, c(0, 1, 2))
  expect_error(pedigree(data.frame(id = c(1, 2.5), sire = 0, dam = 0)), "id: 2.5 is no id")
  expect_error(pedigree(data.frame(id = c(1, 2^53), sire = 0, dam = 0)), "9007199254740992 is a floating point number")
  expect_error(pedigree(data.frame(id = c(TRUE, FALSE), sire = 0, dam = 0)), "id has values that are no ids")
})

test_that("founders without a row stand behind the others", {
  one <- data.frame(id = "c", sire = "s", dam = "d")
  expect_message(found <- pedigree(one), "2 parents without a row are founders: s, d")
  expect_equal(found$ids, c("c", "s", "d"))
  expect_message(again <- pedigree(data.frame(id = c("a", "a"), sire = 0, dam = 0)), "1 row again")
  expect_equal(again$ids, "a")
})

refused <- function(...) pedigree(data.frame(...))

test_that("what may be meant otherwise is refused with the animals", {
  cycle <- "3 animals are their own ancestors, .*: 1 \\(row 1\\), 2 \\(row 2\\)"
  expect_error(refused(id = 1:3, sire = c(2, 3, 1), dam = 0), cycle)
  expect_error(refused(id = c("a", "b"), sire = c("a", ""), dam = ""), "a \\(row 1\\) is a parent of itself")
  expect_error(refused(id = c(1, 2, 1), sire = c(0, 0, 2), dam = 0), "row 3: 1 has another row, 1, with other parents")
  too_deep <- "more than 60 steps, as 62 - 61 - 60 - 1, and F can't be had exactly"
  expect_error(refused(id = 1:62, sire = 0:61, dam = 0), too_deep)
  expect_silent(refused(id = 1:61, sire = 0:60, dam = 0))
  word <- "row 1: '0' is a word for an unknown parent, and stands for an animal"
  expect_error(refused(id = 0:1, sire = -1, dam = -1), word)
  expect_error(refused(id = character(), sire = character(), dam = character()), "there are no animals")
})

test_that("parents without a row that may be others are refused, unless they are said to be founders", {
  alike <- data.frame(id = c("GB-012", "x"), sire = c("", "gb12"), dam = "")
  expect_error(pedigree(alike), "1 parent has no row, .*: gb12 \\(of x in row 2\\): is GB-012 meant\\?")
  expect_message(pedigree(alike, leave_out = TRUE), "1 parent without a row is a founder: gb12")
  for (parent in c("1.0", "1e+00", "01", "\u0456", "L\u00f6-we", "a l2")) {
    ids <- c("1", "i", "lowe", "A12", "x")
    frame <- data.frame(id = ids, sire = c("", "", "", "", parent), dam = "")
    expect_error(pedigree(frame), "parent has no row", info = parent)
  }
  others <- data.frame(id = c("\u0434\u04301", "x"), sire = c("", "\u043d\u04351"), dam = "")
  expect_message(pedigree(others), "1 parent without a row is a founder")
  expect_error(pedigree(data.frame(id = c("1.2E+11", "x"), sire = "", dam = "")), "short form, .*: 1.2E\\+11")
  twice <- data.frame(id = c("1.0", "1"), sire = "", dam = "")
  expect_error(pedigree(twice), "numbers of other animals in another form: 1.0")
  word <- data.frame(id = c("1", "2", "3"), sire = c("Lost", "Lost", "1"), dam = "")
  expect_error(pedigree(word), "may be words for an unknown parent: Lost")
  expect_equal(pedigree(word, unknown = "lost")$sires, c(0, 0, 1))
  expect_message(pedigree(word, known = "Lost"), "is a founder: Lost")
  many <- data.frame(id = 1:9, sire = c(0, 0, 1:6, 51), dam = c(0, 0, 2, 52:57))
  expect_error(pedigree(many), "7 of 13 parents have no row: 52 .*anyway = TRUE")
  expect_message(pedigree(many, anyway = TRUE), "7 parents without a row")
})

test_that("ancestors and parts are those of the numbers", {
  found <- shuffled(drawn(7))
  young <- found$names[28:30]
  kept <- keep(found$frame, young)
  expect_setequal(kept$ids, union(young, ancestors(found$frame, young)))
  expect_true(all(match(kept$ids[kept$sires], kept$ids[kept$order]) > 0))
  expect_error(ancestors(found$frame, c("y", "z")), "no animal of the pedigree has the id y, z")
  expect_output(print(pedigree(mrode)), "a pedigree of 6 animals, 2 of them without parents")
})
