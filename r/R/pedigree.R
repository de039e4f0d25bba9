# A pedigree: ids in the order given, then the parents without a row, and the places of each animal's parents.

most_steps <- 60L

#' A pedigree of a data frame
#'
#' Animals with their sires and dams, in any order of rows. Sexes and birth days aren't needed: an animal may be sire
#' and dam, of others and of one. Ids are compared as texts: 5 and "5" are one. `NA`, 0, empty texts and the usual
#' words are unknown parents. A parent without a row is a founder behind the others, of which a message tells.
#'
#' @param data A data frame with a row for each animal.
#' @param columns The names of the columns, as `c(id = "calf", sire = "father", dam = "mother")`, where they aren't
#'   usual ones. A data frame of three columns may have any names.
#' @param unknown More words for an unknown parent.
#' @param known Words that are animals.
#' @param leave_out Are parents founders that differ from an id in how they are written alone?
#' @param anyway Are other parents without a row founders, also where that is doubtful?
#' @details An error names the animals, and nothing is computed, where there is a cycle, an animal has a second row
#'   with other parents, or a path of known parents has more than 60 steps. So it is, unless `leave_out` or `anyway`
#'   says otherwise, where a parent without a row differs from an id in capitals, accents, signs, blanks, zeros or
#'   look-alike letters alone; where an id is a shortened number (`1e+05`); where a parent of several animals looks
#'   like a word for an unknown one; and where more than a tenth of the parents have no row though others have. A
#'   number of 2^53 or more is refused, for its last digits may be lost: read ids as texts.
#' @return An object of class `pedigree`. Every function that takes one takes such a data frame too.
#' @examples
#' mrode <- data.frame(id = 1:6, sire = c(NA, NA, 1, 1, 4, 5), dam = c(NA, NA, 2, NA, 3, 2))
#' pedigree(mrode)
#' @export
pedigree <- function(data, columns = NULL, unknown = character(), known = character(), leave_out = FALSE,
                     anyway = FALSE) {
  if (inherits(data, "pedigree")) return(data)
  if (!is.data.frame(data)) stop("data is no data frame: give one with a row for each animal", call. = FALSE)
  at <- columns_of(names(data), columns)
  texts <- Map(texts_of, names(at), lapply(at, function(column) data[[column]]))
  check_columns(texts)
  made(texts$id, texts$sire, texts$dam, seq_along(texts$id), "row", unknown, known, leave_out, anyway)
}

columns_of <- function(names, given) {
  other <- setdiff(names(given), names(titles))
  if (length(other) || (length(given) && is.null(names(given))))
    stop("columns has the names id, sire and dam, as c(id = \"calf\")", call. = FALSE)
  absent <- given[!given %in% names]
  if (length(absent)) stop("no column is named ", some_of(absent), ": there are ", some_of(names), call. = FALSE)
  found <- find_columns(names, given)
  if (!is.null(found)) return(found)
  if (length(names) == 3L && !length(given)) return(c(id = 1L, sire = 2L, dam = 3L))
  stop("no columns for id, sire and dam are found among ", some_of(names), ": name them by columns", call. = FALSE)
}

check_columns <- function(texts) {
  if (!length(texts$id)) stop("there are no animals", call. = FALSE)
}

# Ids as they are compared; empty where there is none.
texts_of <- function(name, values) {
  if (inherits(values, "integer64"))
    stop(name, " is of 64-bit integers: give texts, by as.character()", call. = FALSE)
  if (is.factor(values)) values <- as.character(values)
  if (is.logical(values) && all(is.na(values))) return(rep("", length(values)))
  if (is.character(values)) found <- trimws(enc2utf8(values)) else found <- number_texts(name, values)
  found[is.na(values)] <- ""
  found
}

number_texts <- function(name, values) {
  if (!is.numeric(values)) stop(name, " has values that are no ids: give texts or whole numbers", call. = FALSE)
  odd <- values[!is.na(values) & values != floor(values)]
  if (length(odd)) stop(name, ": ", odd[1], " is no id: give texts or whole numbers", call. = FALSE)
  large <- values[!is.na(values) & abs(values) >= 2^53]
  if (length(large))
    stop(
      name, ": ", sprintf("%.0f", large[1]), " is a floating point number, in which the last digits of a long id are ",
      "lost: read ids as texts, by colClasses = \"character\"",
      call. = FALSE
    )
  sprintf("%.0f", as.numeric(values))
}

made <- function(ids, sires, dams, lines, what, unknown, known, leave_out, anyway) {
  are_words <- is_unknown(ids, unknown, known)
  if (any(are_words))
    stop(
      what, " ", lines[which(are_words)[1]], ": '", ids[which(are_words)[1]],
      "' is a word for an unknown parent, and stands for an animal: give it another id",
      call. = FALSE
    )
  sires[is_unknown(sires, unknown, known)] <- ""
  dams[is_unknown(dams, unknown, known)] <- ""
  kept <- once(ids, sires, dams, lines, what)
  ids <- ids[kept]
  sires <- sires[kept]
  dams <- dams[kept]
  where <- data.frame(id = ids, line = lines[kept], what = rep(what, length(kept)))
  parents <- unique(as.vector(rbind(sires, dams)))
  lacking <- setdiff(parents[nzchar(parents)], ids)
  check_founders(ids, sires, dams, lacking, where, known, leave_out, anyway)
  if (length(lacking)) message(told_founders(lacking))
  all_ids <- c(ids, lacking)
  none <- integer(length(lacking))
  found <- structure(
    list(
      ids = all_ids, sires = c(match(sires, all_ids, 0L), none), dams = c(match(dams, all_ids, 0L), none),
      given = length(ids), where = where
    ),
    class = "pedigree"
  )
  found$order <- order_of(found)
  found
}

told_founders <- function(lacking) {
  if (length(lacking) == 1L) return(paste0("1 parent without a row is a founder: ", lacking))
  paste0(length(lacking), " parents without a row are founders: ", some_of(lacking))
}

# The rows that are taken: the first of each animal; later ones have the same parents.
once <- function(ids, sires, dams, lines, what) {
  first <- match(ids, ids)
  again <- which(first != seq_along(ids))
  wrong <- again[sires[again] != sires[first[again]] | dams[again] != dams[first[again]]]
  if (length(wrong))
    stop(
      some_of(paste0(what, " ", lines[wrong], ": ", ids[wrong], " has another ", what, ", ", lines[first[wrong]])),
      ", with other parents: leave the wrong ones out, or give each animal its own id",
      call. = FALSE
    )
  if (length(again))
    message(
      length(again), " ", what, if (length(again) > 1L) "s", " again, with the same parents: ", some_of(ids[again])
    )
  setdiff(seq_along(ids), again)
}

# The first of some texts, and how many more there are.
some_of <- function(texts, most = 12L) {
  more <- if (length(texts) > most) paste0(" and ", length(texts) - most, " more")
  paste0(paste(utils::head(texts, most), collapse = ", "), more)
}

where_is <- function(pedigree, places) {
  id <- pedigree$ids[places]
  ifelse(places > pedigree$given, id, paste0(id, " (", pedigree$where$what[1], " ", pedigree$where$line[places], ")"))
}

# The places of all animals, parents before their offspring.
order_of <- function(pedigree) {
  depth <- depths(pedigree$sires, pedigree$dams)
  if (anyNA(depth)) stop_at_cycle(pedigree, which(is.na(depth)))
  if (any(depth > most_steps)) stop_at_depth(pedigree, depth)
  order(depth)
}

# The steps of each animal's longest path of known parents; NA in and below a cycle.
depths <- function(sires, dams) {
  waiting <- (sires > 0L) + (dams > 0L)
  parents <- c(sires, dams)
  by_parent <- order(parents)[sum(parents == 0L) + seq_len(sum(parents > 0L))]
  offspring <- (by_parent - 1L) %% length(sires) + 1L
  counts <- tabulate(parents, length(sires))
  first <- cumsum(c(1L, counts))
  depth <- rep(NA_integer_, length(sires))
  free <- which(waiting == 0L)
  step <- 0L
  while (length(free)) {
    depth[free] <- step
    those <- sort(offspring[sequence(counts[free], first[free])])
    last <- which(!duplicated(those, fromLast = TRUE))
    those <- those[last]
    waiting[those] <- waiting[those] - diff(c(0L, last))
    free <- those[waiting[those] == 0L]
    step <- step + 1L
  }
  depth
}

stop_at_cycle <- function(pedigree, left) {
  path <- left[1]
  repeat {
    parents <- c(pedigree$sires[path[length(path)]], pedigree$dams[path[length(path)]])
    parent <- parents[parents %in% left][1]
    if (parent %in% path) break
    path <- c(path, parent)
  }
  cycle <- where_is(pedigree, path[match(parent, path):length(path)])
  if (length(cycle) == 1L) stop(cycle, " is a parent of itself: mend its row", call. = FALSE)
  stop(
    length(cycle), " animals are their own ancestors, each a parent of the one before: ", some_of(cycle),
    call. = FALSE
  )
}

stop_at_depth <- function(pedigree, depth) {
  first <- which(depth == most_steps + 1L)
  path <- first[1]
  while (depth[path[length(path)]] > 0L) {
    parents <- c(pedigree$sires[path[length(path)]], pedigree$dams[path[length(path)]])
    parents <- parents[parents > 0L]
    path <- c(path, parents[which.max(depth[parents])])
  }
  stop(
    "a path of known parents has more than 60 steps, as ",
    paste(pedigree$ids[path[c(1:3, length(path))]], collapse = " - "), ", and F can't be had exactly then. Set ",
    "parents of these to unknown, or of ancestors of theirs: ", some_of(where_is(pedigree, first)),
    call. = FALSE
  )
}

# Where some animals stand.
places_of <- function(pedigree, ids) {
  if (is.null(ids)) return(seq_along(pedigree$ids))
  texts <- texts_of("ids", ids)
  places <- match(texts, pedigree$ids)
  if (anyNA(places))
    stop("no animal of the pedigree has the id ", some_of(unique(texts[is.na(places)])), call. = FALSE)
  places
}

#' Parts of a pedigree
#'
#' `ancestors` has the ids of all ancestors of some animals. `keep` cuts a pedigree to some animals with all their
#' ancestors, which changes none of their coefficients. As a data frame a pedigree has the columns `id`, `sire`, `dam`
#' and `inbreeding`.
#'
#' @param pedigree A [pedigree()], or a data frame of one.
#' @param ids The ids of some animals.
#' @return `ancestors` a vector of texts, `keep` a pedigree.
#' @examples
#' mrode <- data.frame(id = 1:6, sire = c(NA, NA, 1, 1, 4, 5), dam = c(NA, NA, 2, NA, 3, 2))
#' ancestors(mrode, 4)
#' keep(mrode, 4)
#' @export
ancestors <- function(pedigree, ids) {
  pedigree <- pedigree(pedigree)
  places <- places_of(pedigree, ids)
  parents <- c(pedigree$sires[places], pedigree$dams[places])
  pedigree$ids[ancestry(pedigree, parents[parents > 0L])]
}

#' @rdname ancestors
#' @export
keep <- function(pedigree, ids) {
  pedigree <- pedigree(pedigree)
  kept_of(pedigree, ancestry(pedigree, places_of(pedigree, ids)))
}

# The places of some animals and of all their ancestors.
ancestry <- function(pedigree, places) {
  is_in <- logical(length(pedigree$ids))
  new <- unique(places)
  while (length(new)) {
    is_in[new] <- TRUE
    parents <- unique(c(pedigree$sires[new], pedigree$dams[new]))
    parents <- parents[parents > 0L]
    new <- parents[!is_in[parents]]
  }
  which(is_in)
}

kept_of <- function(pedigree, places) {
  new <- integer(length(pedigree$ids) + 1L)
  new[places + 1L] <- seq_along(places)
  given <- places[places <= pedigree$given]
  found <- structure(
    list(
      ids = pedigree$ids[places], sires = new[pedigree$sires[places] + 1L], dams = new[pedigree$dams[places] + 1L],
      given = length(given), where = pedigree$where[given, ]
    ),
    class = "pedigree"
  )
  order <- new[pedigree$order + 1L]
  found$order <- order[order > 0L]
  found
}

#' @export
as.data.frame.pedigree <- function(x, row.names = NULL, optional = FALSE, ...) {
  parents <- c(NA_character_, x$ids)
  data.frame(
    id = x$ids, sire = parents[x$sires + 1L], dam = parents[x$dams + 1L], inbreeding = unname(inbreeding(x)),
    row.names = row.names
  )
}

#' @export
print.pedigree <- function(x, ...) {
  count <- length(x$ids)
  cat(
    "a pedigree of ", format(count, big.mark = ","), if (count == 1L) " animal" else " animals", ", ",
    format(sum(x$sires == 0L & x$dams == 0L), big.mark = ","), " of them without parents\n",
    sep = ""
  )
  invisible(x)
}
