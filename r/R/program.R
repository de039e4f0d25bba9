# The program herdbook: where it is, and what it answers of a pedigree by numbers.

# so many numbers stand in one call at most, since a command line has an end
most_rows <- 2000L
most_columns <- 8000L

#' Where the program herdbook is
#'
#' Every coefficient comes from it. It is the file that the environment variable `HERDBOOK` names, else one in the
#' folder of this package, else the one on the path, if that has this package's version. Nothing is built or fetched.
#'
#' @return The path of the program; an error says what to do where there is none.
#' @examples
#' \dontrun{
#' Sys.setenv(HERDBOOK = "/home/me/herdbook")
#' herdbook_path()
#' }
#' @export
herdbook_path <- function() {
  named <- Sys.getenv("HERDBOOK")
  if (nzchar(named)) {
    if (!file.exists(named) || dir.exists(named))
      stop("HERDBOOK names ", named, ", which is no file: say where the program is", call. = FALSE)
    return(normalizePath(named))
  }
  beside <- system.file("herdbook", package = "gudokeyi")
  if (nzchar(beside)) return(beside)
  found <- Sys.which("herdbook")
  wanted <- as.character(utils::packageVersion("gudokeyi"))
  if (nzchar(found) && identical(version_of(found), paste("herdbook", wanted))) return(unname(found))
  stop(
    "the program herdbook ", wanted, " isn't on the path: install it, or say where it is, as ",
    "Sys.setenv(HERDBOOK = \"/home/me/herdbook\")",
    call. = FALSE
  )
}

version_of <- function(path) {
  tryCatch(
    suppressWarnings(system2(path, "--version", stdout = TRUE, stderr = FALSE, stdin = nullfile()))[1],
    error = function(error) ""
  )
}

# The columns of what `herdbook pedigree` writes, as texts; animals are numbers, parents before their offspring.
ask <- function(pedigree, words, columns) {
  files <- tempfile(c("given", "answer", "error"))
  on.exit(unlink(files))
  place <- pedigree$order
  number <- number_of(pedigree)
  write_records(files[1], number[pedigree$sires[place] + 1L], number[pedigree$dams[place] + 1L])
  words <- c("pedigree", words, "--limit-animals", as.character(max(1L, length(place))))
  status <- system2(herdbook_path(), words, stdin = files[1], stdout = files[2], stderr = files[3])
  if (status != 0L) {
    told <- paste(readLines(files[3], warn = FALSE), collapse = " ")
    stop("the program herdbook can't answer: ", if (nzchar(told)) told else paste("status", status), call. = FALSE)
  }
  scan(files[2], what = columns, sep = ",", quiet = TRUE, multi.line = FALSE, na.strings = character())
}

write_records <- function(file, sires, dams) {
  to <- file(file, "wb")
  on.exit(close(to))
  writeLines(c("sire,dam", paste(sires, dams, sep = ",")), to)
}

# The number of each place, from 1 on, behind the 0 of an unknown parent.
number_of <- function(pedigree) {
  found <- integer(length(pedigree$order) + 1L)
  found[pedigree$order + 1L] <- seq_along(pedigree$order)
  found
}

# Fractions as doubles: both parts are read by R, and divided once.
as_double <- function(fractions) {
  above <- as.numeric(sub("/.*", "", fractions))
  below <- sub("^[^/]*/?", "", fractions)
  below[!nzchar(below)] <- "1"
  above / as.numeric(below)
}

# Halves of fractions whose denominators are powers of two.
halved <- function(fractions) {
  above <- sub("/.*", "", fractions)
  below <- sub("^[^/]*/?", "", fractions)
  is_whole <- !nzchar(below)
  found <- paste0(above, "/", doubled(below))
  # whole relationships are 0, 1 and 2
  found[is_whole] <- c("0", "1/2", "1")[as.integer(above[is_whole]) + 1L]
  found
}

# Powers of two as texts, twice as large.
doubled <- function(powers) {
  known <- sprintf("%.0f", 2^(0:122))
  known[match(powers, known) + 1L]
}
