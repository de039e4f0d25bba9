text <- c("1 0 0", "2 0 0", "3 1 2", "4 1 0", "5 4 3", "6 5 2")

read <- function(lines, name = "p.txt", ...) {
  folder <- tempfile()
  dir.create(folder)
  file <- file.path(folder, name)
  to <- if (grepl("gz$", name)) gzfile(file, "wb") else file(file, "wb")
  writeLines(enc2utf8(lines), to, useBytes = TRUE)
  close(to)
  read_pedigree(file, ...)
}

is_mrode <- function(found) {
  expect_setequal(found$ids, as.character(1:6))
  parents <- c("0", found$ids)
  at <- match(as.character(1:6), found$ids)
  expect_equal(parents[found$sires[at] + 1], c("0", "0", "1", "1", "4", "5"))
  expect_equal(parents[found$dams[at] + 1], c("0", "0", "2", "0", "3", "2"))
}

test_that("files of usual forms say the same", {
  is_mrode(read(text))
  is_mrode(read(text, "p.txt.gz"))
  is_mrode(read(c("# a book", "", "1 0 0 # a, b", "2\t0 0", "3 1 2   #; c", "4 1 0", "5 4 3", "6 5 2")))
  is_mrode(read(c("Ind\tDad\tMum\tweight", gsub(" ", "\t", paste(text, "3.5")))))
  is_mrode(read(c("sire,dam,id", "5,2,6", "4,3,5", "1,NA,4", "1,2,3", ",,2", ",,1")))
  is_mrode(read(c("id;sire;dam", "\"1\";.;.", "2;?;?", "3;1;2", "4; 1 ;-9", "5;4;3 # as told", "6;5;2")))
  is_mrode(read(paste("F1", text, "0 -9"), "plink.fam"))
  is_mrode(read(c("#FID IID PAT MAT SEX PHENO", paste("F1", text, "0 -9"))))
  is_mrode(read(c("x,a,b,c", sub("(.) (.) (.)", "9,\\1,\\2,\\3", text)), columns = c(id = "a", sire = "b", dam = "c")))
})

test_that("ids with blanks have quotation marks, and letters of any language stay", {
  found <- read(c("\"the 1\" 0 0", "L\u00f6we \"the 1\" 0", "x L\u00f6we \"the 1\""))
  expect_equal(found$ids, c("the 1", "L\u00f6we", "x"))
  expect_equal(found$dams, c(0, 0, 1))
})

test_that("what can't be read as it is meant is refused with the line", {
  expect_error(read("1 0"), "line 1: '1 0' has 2 cells")
  expect_error(read(c("1 0 0", "2 1 0 M")), "line 2: '2 1 0 M' has 4 cells")
  expect_error(read(c("1 0 0", "# x", "1 0 2", "2 0 0")), "line 3: 1 has another line, 1, with other parents")
  expect_error(read(c("id,sire", "1,2")), "line 1 has titles \\(id, sire\\), but not those of id, sire and dam")
  expect_error(read(c("fid,iid,pat,mat", "A,1,,", "B,1,,")), "ids stand in several families: 1")
  expect_error(read("# nothing"), "has no animals")
  expect_error(read_pedigree(tempfile()), "isn't there")
})
