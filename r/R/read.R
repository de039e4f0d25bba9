# Pedigree files.

#' Reads a pedigree file
#'
#' A text file with `id sire dam` in each line, in any order of lines, with blanks, tabs, commas or semicolons
#' between them, also packed by gzip. A first line with titles of a usual program (`Indiv Sire Dam`, `id dadid
#' momid`, `IID PAT MAT`) has titles. `#` begins a comment, also behind the cells of a line. A file without titles
#' whose name has `.fam` is one of PLINK.
#'
#' @param file The path of the file.
#' @inheritParams pedigree
#' @details What [pedigree()] refuses is refused here, with the lines.
#' @return A [pedigree()].
#' @examples
#' file <- tempfile()
#' writeLines(c("id sire dam", "1 0 0", "2 0 0", "3 1 2", "4 1 0", "5 4 3", "6 5 2"), file)
#' read_pedigree(file)
#' @export
read_pedigree <- function(file, columns = NULL, unknown = character(), known = character(), leave_out = FALSE,
                          anyway = FALSE) {
  lines <- lines_of(file)
  separator <- separator_of(sub("\\s#.*", "", lines$text[1]))
  first <- cells_of(sub("\\s#.*", "", lines$text[1]), separator)
  at <- find_columns(first, columns)
  if (is.null(at) && length(columns))
    stop("line ", lines$number[1], " has no titles ", some_of(columns), ": it has ", some_of(first), call. = FALSE)
  has_titles <- !is.null(at) && is_of_titles(first, at)
  is_family <- !has_titles && grepl("\\.fam(\\.|$)", basename(file)) && length(first) == 6L
  if (!has_titles) {
    refuse_titles(first, lines$number[1])
    at <- if (is_family) c(id = 2L, sire = 3L, dam = 4L) else c(id = 1L, sire = 2L, dam = 3L)
  }
  wanted <- if (has_titles) length(first) else if (is_family) 6L else 3L
  if (has_titles) lines <- lapply(lines, function(one) one[-1])
  cells <- table_of(lines, separator, max(at), wanted, has_titles)
  check_columns(list(id = cells[[at["id"]]]))
  texts <- lapply(as.list(at), function(column) cells[[column]])
  refuse_families(first, has_titles, is_family, cells, texts$id)
  made(texts$id, texts$sire, texts$dam, lines$number, "line", unknown, known, leave_out, anyway)
}

# The lines that have cells, with their numbers.
lines_of <- function(file) {
  if (!file.exists(file)) stop(file, " isn't there", call. = FALSE)
  text <- enc2utf8(readLines(file, warn = FALSE, encoding = "UTF-8", skipNul = TRUE))
  if (length(text)) text[1] <- sub("^\ufeff", "", text[1])
  commented <- grep("#", text, fixed = TRUE)
  text[commented] <- sub("^#([FI]ID\\s)", "\\1", text[commented])
  are_cells <- grepl("\\S", text)
  are_cells[commented] <- !grepl("^\\s*#", text[commented])
  if (!any(are_cells)) stop(file, " has no animals: write a line `id sire dam` for each", call. = FALSE)
  list(number = which(are_cells), text = text[are_cells])
}

# What stands between the cells, by the first line; an empty text where blanks do.
separator_of <- function(line) {
  for (one in c(";", "\t", ",")) if (grepl(one, line, fixed = TRUE)) return(one)
  ""
}

cells_of <- function(line, separator) {
  scan(text = line, what = "", sep = separator, quote = "\"", quiet = TRUE, strip.white = TRUE,
       na.strings = character())
}

# A line of titles has one that isn't short at least: an animal may have such an id.
is_of_titles <- function(cells, at) any(!plain(cells[at]) %in% short_titles)

refuse_titles <- function(cells, number) {
  found <- intersect(plain(cells), setdiff(unlist(titles), c(short_titles, "name", "nom")))
  if (length(found))
    stop(
      "line ", number, " has titles (", some_of(cells), "), but not those of id, sire and dam: name them by columns, ",
      "as c(id = \"calf\")",
      call. = FALSE
    )
}

# The cells of each column.
table_of <- function(lines, separator, last, wanted, has_titles) {
  plain <- plain_table(lines$text, separator, last, wanted)
  if (!is.null(plain)) return(plain)
  text <- lines$text
  commented <- grep("\\s#", text)
  if (length(commented)) text[commented] <- vapply(text[commented], without_comment, "", separator, last)
  counts <- utils::count.fields(textConnection(text), sep = separator, quote = "\"", comment.char = "",
                                blank.lines.skip = FALSE)
  wrong <- which(is.na(counts) | counts < last | counts > wanted)
  if (length(wrong))
    stop(
      "line ", lines$number[wrong[1]], ": '", lines$text[wrong[1]], "' has ", counts[wrong[1]], " cells, not ", wanted,
      if (!has_titles) ": write an id, its sire and its dam, 0 for an unknown one" else ", as titles are there",
      call. = FALSE
    )
  utils::read.table(
    text = text, sep = separator, quote = "\"", comment.char = "", colClasses = "character", na.strings = character(),
    fill = TRUE, strip.white = TRUE, header = FALSE, col.names = paste0("V", seq_len(wanted)), encoding = "UTF-8",
    blank.lines.skip = FALSE
  )
}

# The same of lines without quotation marks and comments, each with as many cells; else NULL.
plain_table <- function(text, separator, last, wanted) {
  if (any(grepl("[\"'#]", text))) return(NULL)
  if (nzchar(separator)) {
    # an empty cell at the end would be lost
    parts <- strsplit(paste0(text, separator), separator, fixed = TRUE)
  } else {
    parts <- strsplit(gsub("[ \t]+", " ", trimws(text)), " ", fixed = TRUE)
  }
  counts <- lengths(parts)
  if (any(counts != counts[1]) || counts[1] < last || counts[1] > wanted) return(NULL)
  cells <- matrix(unlist(parts, use.names = FALSE), counts[1])
  if (nzchar(separator) && any(grepl("[ \t]", text))) cells[] <- trimws(cells)
  lapply(seq_len(counts[1]), function(at) cells[at, ])
}

# A line up to the comment behind the cells that are read.
without_comment <- function(line, separator, last) {
  before <- sub("\\s+#.*", "", line)
  if (length(cells_of(before, separator)) >= last) before else line
}

# In a file of families, as PLINK has them, an id may stand in several.
refuse_families <- function(titles, has_titles, is_family, cells, ids) {
  at <- if (is_family) 1L else if (has_titles) match(TRUE, plain(titles) %in% c("fid", "famid", "family", "familyid"))
  if (is.null(at) || is.na(at)) return(invisible())
  several <- unique(ids[duplicated(ids) & !duplicated(paste(ids, cells[[at]], sep = "\r"))])
  if (length(several))
    stop("ids stand in several families: ", some_of(several), ". Give each animal an id of its own", call. = FALSE)
}
