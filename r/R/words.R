# The titles of pedigree files, and the words for unknown parents.

titles <- list(
  id = c(
    "id", "animal", "animalid", "indiv", "individual", "ind", "idnum", "iid", "label", "calf", "anim", "aid", "progeny",
    "offspring", "kid", "child", "self", "subject", "genotype", "clone", "tree", "fish", "eartag", "tag",
    "registration", "tier", "tierid", "ohrmarke", "filho", "produto", "nom", "hijo", "cria", "individuo", "name"
  ),
  sire = c(
    "sire", "father", "sireid", "idsire", "pat", "dad", "dadid", "fatherid", "paternalid", "pid", "sid", "sirenumber",
    "vater", "pere", "pai", "padre", "maleparent", "pollenparent", "s", "f", "p"
  ),
  dam = c(
    "dam", "mother", "damid", "iddam", "mat", "mom", "momid", "mum", "motherid", "maternalid", "mid", "did",
    "damnumber", "mutter", "mere", "mae", "madre", "femaleparent", "seedparent", "d", "m"
  )
)
# single letters are read beside other titles alone
short_titles <- c("s", "f", "p", "d", "m")

unknown_words <- c(
  "", "na", "<na>", "nan", "n/a", "nn", "none", "null", "unknown", "unk", "not known", "not recorded",
  "not available", "unknown sire", "unknown dam", "unbekannt", "unbek", "nicht bekannt", "nb", "ka", "keine angabe",
  "keine angaben", "fehlt", "inconnu", "inconnue", "non connu", "non connue", "pas connu", "non renseign\u00e9",
  "non renseign\u00e9e", "nc", "nr", "n/k", "nbek", "fremd", "zukauf", "zugekauft", "unregistered", "not registered",
  "not yet registered", "not yet reg", "vater unbekannt", "mutter unbekannt", "p\u00e8re inconnu", "m\u00e8re inconnue",
  "onc", "origine non constat\u00e9e", "origine inconnue", "sire unknown", "dam unknown", "father unknown",
  "mother unknown", "unknown father", "unknown mother", "vater unbek", "mutter unbek", "unbekannter vater",
  "unbekannte mutter", "vater nicht bekannt", "mutter nicht bekannt", "p\u00e8re non d\u00e9clar\u00e9",
  "m\u00e8re non d\u00e9clar\u00e9e", "non d\u00e9clar\u00e9", "non d\u00e9clar\u00e9e", "non enregistr\u00e9",
  "non enregistr\u00e9e", "non inscrit", "non inscrite", "nicht eingetragen", "nicht eingetr", "nicht registriert",
  "nicht erfasst", "fremdbock", "fremdwidder", "fremdhengst", "fremdbulle", "fremdr\u00fcde", "fremdkater", "stray",
  "stray tom", "mixed mating", "mixed matings", "group mating", "pending dna", "dna pending",
  "n\u00e9ant", "n\u00e9 de p\u00e8re inconnu", "n\u00e9e de p\u00e8re inconnu", "n\u00e9 de m\u00e8re inconnue",
  "n\u00e9e de m\u00e8re inconnue", "de p\u00e8re inconnu", "de m\u00e8re inconnue", "n\u00e9 de parents inconnus",
  "n\u00e9e de parents inconnus", "parents inconnus", "origines inconnues", "von unbekanntem vater",
  "von unbekannter mutter",
  "-1", "-9", "-99", "-999", "-9999"
)
# capitals often lack their accents
unknown_words <- unique(c(unknown_words, chartr("\u00e9\u00e8\u00fc", "eeu", unknown_words)))
# signs alone, zeros alone, and the usual numbers as other programs write them
unknown_signs <- "^([-\u2013\u2014?.*/_~+\u2020\u271d]+|[-+]?0[0.,]*|-(1|9{1,4})[.,]0+)$"
error_values <- paste0(
  "^(#(REF|BEZUG|N/A|NV|WERT|VALUE|VALEUR|NAME|NOM|DIV/0|NUM|ZAHL|NOMBRE|NULL|\u00dcBERLAUF|SPILL|PROPAGATION|CALC|",
  "KALK|FIELD|FELD|CHAMP|BLOCKED|GETTING_DATA)[!?]?|Err:[0-9]{3}|#{3,})$"
)

# Which texts stand for an unknown parent: `unknown` adds words, `known` takes some back.
is_unknown <- function(texts, unknown = character(), known = character()) {
  distinct <- unique(texts)
  # few have no digit but zeros before a remark in brackets, or begin as numbers below 0 and error values do
  likely <- !grepl("^[^1-9(]*[1-9]", distinct) | grepl("^([-#]|Err:)", distinct, ignore.case = TRUE)
  found <- logical(length(distinct))
  found[likely] <- is_usual_unknown(distinct[likely])
  if (length(known)) found <- found & !tolower(distinct) %in% tolower(known)
  if (length(unknown)) found <- found | tolower(distinct) %in% tolower(unknown)
  found[distinct == ""] <- TRUE
  found[match(texts, distinct)]
}

is_usual_unknown <- function(texts) {
  folded <- tolower(texts)
  without_points(folded) %in% unknown_words | folded %in% unknown_words | is_explained(folded) |
    grepl(unknown_signs, texts, perl = TRUE) | grepl(error_values, texts, ignore.case = TRUE, perl = TRUE)
}

# Abbreviations without their points and the blanks behind them.
without_points <- function(folded) gsub("\\.\\s*", "", folded)

# A word for unknown with a remark in brackets, as `unbekannt (Weide)`: few letters may be a name's.
is_explained <- function(folded) {
  words <- sub("\\(.*", "", folded)
  words != folded & nchar(words) > 4 & trimws(without_points(words)) %in% unknown_words
}

# A title in small letters, without accents, blanks and signs.
plain <- function(texts) gsub("[^a-z0-9]", "", latin(texts))

# letters of Latin with accents, of Cyrillic and of Greek, and those of Latin without that they are or look like
accented <- list(
  from = paste0(
    "\u00e0\u00e1\u00e2\u00e3\u00e4\u00e5\u0101\u0103\u0105\u00e7\u0107\u0109\u010b\u010d",
    "\u010f\u0111\u00e8\u00e9\u00ea\u00eb\u0113\u0115\u0117\u0119\u011b\u011d\u011f\u0121",
    "\u0123\u0125\u00ec\u00ed\u00ee\u00ef\u0129\u012b\u012d\u012f\u0135\u0137\u013a\u013c",
    "\u013e\u0142\u00f1\u0144\u0146\u0148\u00f2\u00f3\u00f4\u00f5\u00f6\u014d\u014f\u0151",
    "\u00f8\u0155\u0157\u0159\u015b\u015d\u015f\u0161\u017f\u0163\u0165\u00f9\u00fa\u00fb",
    "\u00fc\u0169\u016b\u016d\u016f\u0171\u0173\u0175\u00fd\u00ff\u0177\u017a\u017c\u017e"
  ),
  to = paste0(
    "aaaaaaaaacccccddeeeeeeeeegggghiiiiiiiijkllllnnnnooooooooorrr",
    "sssssttuuuuuuuuuuwyyyzzz"
  )
)
look_alike <- list(
  from = paste0(
    "\u0430\u0432\u0435\u043a\u043c\u043d\u043e\u0440\u0441\u0442\u0443\u0445\u0456\u0458",
    "\u0455\u03b1\u03b2\u03b5\u03b6\u03b7\u03b9\u03ba\u03bc\u03bd\u03bf\u03c1\u03c4\u03c5",
    "\u03c7"
  ),
  to = "abekmhopctyxijsabezhikmnoptyx"
)

# Texts in small letters of Latin, as far as theirs look like these.
latin <- function(texts) {
  # letters that stand apart from their accents lose these
  bare <- gsub("[\u0300-\u036f]", "", tolower(enc2utf8(texts)), perl = TRUE)
  chartr(look_alike$from, look_alike$to, chartr(accented$from, accented$to, bare))
}

# The column of each of id, sire and dam among some titles: NULL where one lacks.
find_columns <- function(names, given = character()) {
  plain_names <- plain(names)
  found <- integer()
  for (field in names(titles)) {
    at <- if (field %in% names(given)) match(given[[field]], names) else
      first_of(match(titles[[field]], plain_names), found)
    if (is.na(at)) return(NULL)
    found[field] <- at
  }
  found
}

first_of <- function(places, taken) {
  places <- places[!is.na(places) & !places %in% taken]
  if (length(places)) places[1] else NA_integer_
}
