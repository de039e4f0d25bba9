library(testthat)
library(gudokeyi)

test_check("gudokeyi")
