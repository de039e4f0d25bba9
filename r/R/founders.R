# Parents without a row that may be no founders: ids that are written otherwise, words, and very many of them.

number_form <- "^[-+]?[0-9]{1,40}([.,][0-9]{1,40})?(e[-+]?[0-9]{1,2})?$"
# a long number as a spreadsheet shows it, which has cut it
cut_form <- "^[0-9][.,]?[0-9]*E\\+[0-9]+$"
# without a digit but zeros, with a sign before it, of nines alone, or of one digit five times and more
word_form <- "^([^1-9]*|[-+].*|9{2,}|([0-9])\\2{4,})$"

check_founders <- function(ids, sires, dams, lacking, where, known, leave_out, anyway) {
  if (!leave_out) {
    refuse_alike(ids, sires, dams, lacking, where)
    refuse_numbers(ids, lacking)
  }
  if (leave_out || anyway) return(invisible())
  lacking <- lacking[!tolower(lacking) %in% tolower(known)]
  parents <- c(sires, dams)
  counts <- tabulate(match(parents, lacking), length(lacking))
  words <- lacking[counts > 1L & grepl(word_form, lacking, perl = TRUE)]
  if (length(words))
    stop(
      "parents without a row may be words for an unknown parent: ", some_of(words), ". Name them by unknown, or by ",
      "known if they are animals",
      call. = FALSE
    )
  all <- length(unique(parents[nzchar(parents)]))
  if (10 * length(lacking) > all && all > length(lacking))
    stop(
      length(lacking), " of ", all, " parents have no row: ", some_of(offspring_of(lacking, ids, sires, dams, where)),
      ". If they are founders, say anyway = TRUE",
      call. = FALSE
    )
}

# Each of some parents with its first offspring.
offspring_of <- function(parents, ids, sires, dams, where) {
  parents <- utils::head(parents, 13L)
  first <- pmin(match(parents, sires, length(ids)), match(parents, dams, length(ids)))
  paste0(parents, " (of ", ids[first], " in ", where$what[1], " ", where$line[first], ")")
}

refuse_alike <- function(ids, sires, dams, lacking, where) {
  if (!length(lacking)) return(invisible())
  of_ids <- spellings(ids)
  of_lacking <- spellings(lacking)
  meant <- rep(NA_integer_, length(lacking))
  for (one in of_lacking) for (other in of_ids) {
    found <- match(one, other, incomparables = "")
    meant[is.na(meant)] <- found[is.na(meant)]
  }
  alike <- !is.na(meant)
  if (!any(alike)) return(invisible())
  those <- utils::head(which(alike), 13L)
  told <- paste0(offspring_of(lacking[those], ids, sires, dams, where), ": is ", ids[meant[those]], " meant?")
  stop(
    sum(alike), if (sum(alike) == 1L) " parent has" else " parents have", " no row, and an id differs in capitals, ",
    "accents, blanks, signs, zeros, look-alike letters or the form of a number alone: ", some_of(told),
    " Write them alike, or say leave_out = TRUE if they are founders",
    call. = FALSE
  )
}

# What ids have in common that may be meant alike: as a number, without signs, and with digits for letters like them.
spellings <- function(texts) {
  bare <- zeros_cut(gsub("[^\\p{L}\\p{N}]", "", zeros_cut(latin(texts)), perl = TRUE))
  digits <- ifelse(grepl("[0-9]", bare), zeros_cut(chartr("oil", "011", bare)), "")
  list(number = number_texts_of(texts), bare = bare, digits = digits)
}

zeros_cut <- function(texts) gsub("(?<![0-9])0+(?=[0-9])", "", texts, perl = TRUE)

# Numbers as whole ones are written: 1.0 and 1e+05 are 1 and 100000. Empty where a text is none.
number_texts_of <- function(texts) {
  are_numbers <- grepl(number_form, texts, ignore.case = TRUE) & !grepl("^[0-9]{16,}$", texts)
  found <- rep("", length(texts))
  values <- suppressWarnings(as.numeric(sub(",", ".", texts[are_numbers], fixed = TRUE)))
  are_whole <- is.finite(values) & abs(values) < 2^53 & values == floor(values)
  found[are_numbers][are_whole] <- sprintf("%.0f", values[are_whole])
  found
}

refuse_numbers <- function(ids, lacking) {
  cut <- grep(cut_form, c(ids, lacking), ignore.case = TRUE, value = TRUE)
  cut <- cut[grepl("+", cut, fixed = TRUE)]
  if (length(cut))
    stop(
      "ids are numbers in the short form, in which digits may be lost: ", some_of(cut), ". Read ids as texts, or say ",
      "leave_out = TRUE to take them as they are written",
      call. = FALSE
    )
  odd <- ids[grepl("[.,]0+$|^[-+]|e[-+]", ids, ignore.case = TRUE) & grepl(number_form, ids, ignore.case = TRUE)]
  twice <- odd[number_texts_of(odd) != odd & number_texts_of(odd) %in% ids]
  if (length(twice))
    stop(
      "ids are numbers of other animals in another form: ", some_of(twice), ". Write ids as whole numbers, or say ",
      "leave_out = TRUE if they are two",
      call. = FALSE
    )
}
