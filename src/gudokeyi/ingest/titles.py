"""What a column of a sheet may have, the usual titles in English, German and French, and the options that name
others."""
from __future__ import annotations

import csv
import re
from collections.abc import Iterable

from gudokeyi.domain.kinds import Field
from gudokeyi.domain.messages import Mistake, some_of
from gudokeyi.ingest.messages import SheetFault
from gudokeyi.ingest.texts import composed, listed, plain
from gudokeyi.ingest.exit_words import SIGN
from gudokeyi.ingest.words import (
    CASTRATED_MALE, KNOWN_CASTRATED, KNOWN_EXITS, KNOWN_SALES, KNOWN_SEXES, KNOWN_YES, sex_word,
)  # fmt: skip

# What a column of a sheet may have, and the usual titles in English, German and French.

# titles of columns that say why an animal left: all that stands there tells of an exit
REASONS = (
    "Abgangsgrund, Abgangsursache, Grund des Abgangs, Todesursache, exit reason, reason for exit, reason for leaving, "
    "reason left, cause of death, motif de sortie, motif de la sortie, cause de sortie, cause de la sortie, raison de la "
    "sortie, cause de mort, cause du décès"
)
# The usual titles, the likelier first: where a sheet has both a column of days and one of words, as `Abgangsdatum` and
# `Abgang`, the one of days is read; a column of all exits is read before one of deaths alone. They are compared in
# small letters, without accents, blanks and signs. A parent's column may also have a word for the parent beside one
# for the id, as `Vater Ohrmarke`.
TITLES = {
    Field.ID: "id, animal id, ear tag, eartag, ear tag number, ear tag no, tag, tag number, tag no, animal number, "
    "animal no, registration, registration number, registration no, reg no, reg, reg number, registered number, "
    "herd book number, herd book no, stud book number, stud book no, stud no, flock book no, passport no, microchip, "
    "chip, chip no, chip number, UELN, tattoo, tattoo number, tattoo no, pedigree number, pedigree no, "
    "identification, ident, Ohrmarke, Ohrmarkennummer, Ohrmarken-Nr, Ohrm, Lebensnummer, Lebens-Nr, Lebensohrmarke, "
    "Herdbuchnummer, Herdbuch-Nr, Stammbuchnummer, Stammbuch-Nr, Zuchtbuchnummer, Zuchtbuch-Nr, ZB-Nr, Chipnummer, "
    "Chip-Nr, Tiernummer, Tier-Nr, "
    "Tier-ID, LOM, HB-Nr, LNr, Kennzeichen, Kennung, Tätowierung, Halsbandnummer, Halsband, Stallnummer, "
    "numéro national, n° national, numéro d'identification, "
    "identifiant, n° d'identification, n° SIRE, numéro SIRE, LOF, n° LOF, tatouage, puce, "
    "boucle, matricule, animal, Tier, number, no, nr, Nummer, numéro, n°",
    Field.NAME: "name, registered name, animal name, full name, Tiername, Zuchtname, "
    "Name des Tieres, nom, nom de l'animal, nom du chien, nom du cheval, dog name, name of dog, horse name, "
    "name of horse, Name des Hundes, Name des Pferdes, Pferdename, Hundename, pedigree name, herd book name, stud book "
    "name, official name, name of animal, animal's name, name (registered), Vollname, voller Name, vollständiger Name, "
    "eingetragener Name, Zuchtbuchname, Herdbuchname, nom complet, nom officiel, nom enregistré, nom animal, dog, horse, "
    "Hund, Pferd, chien, cheval, Rufname, call name, stable name, nom usuel, nom d'usage, nom d'élevage",
    Field.SEX: "sex, gender, Geschlecht, Geschl, sexe, genre, sex m/f, Geschlecht m/w, sexe m/f, m/w, m/f, w/m, f/m",
    Field.BIRTH: "birth date, date of birth, birthday, birth day, dob, date born, Geburtsdatum, Geburtstag, "
    "geboren am, geb. am, "
    "geb-Datum, Geb.-Dat, Geburtsdat, date de naissance, date naissance, né le, née le, né(e) le, ddn, date naiss, "
    "date de nais, "
    "whelping date, date whelped, foaling date, date foaled, lambing date, date lambed, Wurfdatum, Wurftag, Lammdatum, "
    "Kalbedatum, Abfohldatum, "
    "born, birth, whelped, foaled, lambed, calved, geboren, Geburt, geb, gew, geworfen, gewölft, naissance, né, née, "
    "birth year, year of birth, year, Geburtsjahr, Jahrgang, année de naissance, année",
    Field.SIRE: "sire, of sire, father, Vater, des Vaters, Vatertier, père, du père, père SIRE, "
    "sire name, name of sire, sire's name, father name, Name Vater, Vatername, Name des Vaters, nom du père, nom père, "
    "sire registered name, Name d. Vaters, Name d. Vater, Rufname Vater, V-Name",
    Field.DAM: "dam, of dam, mother, Mutter, der Mutter, Muttertier, mère, de la mère, mère SIRE, "
    "dam name, name of dam, dam's name, mother name, Name Mutter, Muttername, Name der Mutter, nom de la mère, "
    "nom mère, dam registered name, Name d. Mutter, Rufname Mutter, M-Name",
    Field.OWNER: "owner, current owner, present owner, owner name, name of owner, owner's name, owner surname, "
    "owner's surname, surname of owner, owner last name, owner's last name, owner family name, keeper surname, "
    "Nachname Besitzer, Besitzer Nachname, Nachname des Besitzers, Familienname Besitzer, Nachname Eigentümer, "
    "Eigentümer Nachname, Nachname Halter, Halter Nachname, nom de famille du propriétaire, "
    "nom de famille propriétaire, aktueller Besitzer, "
    "propriétaire actuel, herd, flock, farm, holding, keeper, Besitzer, Besitzerin, "
    "Eigentümer, Eigentümerin, Halter, Tierhalter, Betrieb, propriétaire, détenteur, élevage, exploitation, "
    "herd name, flock name, farm name, name of farm, keeper name, name of keeper, Name Besitzer, Name des Besitzers, "
    "Besitzername, Name Eigentümer, Name des Eigentümers, Eigentümername, Name Halter, Name des Halters, Haltername, "
    "Name Tierhalter, Name des Tierhalters, Betriebsname, Name des Betriebs, nom du propriétaire, nom propriétaire, "
    "nom du détenteur, nom détenteur, nom de l'élevage, nom élevage, nom de l'exploitation, nom exploitation, "
    "surname, last name, family name, Nachname, Familienname, nom de famille, "
    "Besitzer aktuell, jetziger Besitzer, jetzige Besitzerin, heutiger Besitzer, derzeitiger Besitzer, Besitzer/in, "
    "Eigentümer/in, aktueller Eigentümer, jetziger Eigentümer, aktueller Halter, jetziger Halter, Besitzer/Halter, "
    "Halter/Besitzer, Eigentümer/Halter, Halter/Eigentümer, Besitzer/Eigentümer, Eigentümer/Besitzer, Züchter/Besitzer, "
    "Besitzer/Züchter, owner/keeper, keeper/owner, owner/holding, owner/breeder, breeder/owner, owner (current), "
    "current keeper, propriétaire/détenteur, détenteur/propriétaire, propriétaire/éleveur, éleveur/propriétaire, "
    "détenteur actuel, propr, Herde, cheptel, troupeau, owner 1, 1st owner, first owner, keeper 1, Besitzer 1, "
    "1. Besitzer, erster Besitzer, Eigentümer 1, 1. Eigentümer, Halter 1, 1. Halter, propriétaire 1, 1er propriétaire, "
    "premier propriétaire, détenteur 1, owners, Halterin, Tierhalterin, Halter/in, Tierhalter/in, Tierhalter Name, "
    "Tierbesitzer, Tierbesitzerin, Tiereigentümer, Eigner, proprietor, propriétaires, éleveur/détenteur, détenteur/éleveur, "
    "Züchter/Halter, Halter/Züchter, Züchter/Eigentümer, Eigentümer/Züchter, breeder/keeper, keeper/breeder, "
    "naisseur/détenteur, naisseur/propriétaire",
    Field.SINCE: "owner since, owned since, since, date of transfer, transfer date, transferred, date of purchase, "
    "purchase date, bought, acquired, Besitzer seit, im Besitz seit, seit, Besitzwechsel, Besitzerwechsel, "
    "Besitzwechsel am, Besitzerwechsel am, Wechseldatum, Halter seit, Eigentümer seit, gekauft am, Kaufdatum, "
    "Kauf am, erworben am, Erwerb am, Erwerbsdatum, Besitzer ab, propriétaire depuis, depuis, depuis le, date d'achat, "
    "date de transfert, date de mutation, date d'acquisition, acheté le, achetée le, acquis le, acquise le, mutation "
    "le, date acquired, acquired on, purchased, purchased on, bought on, date bought, date purchased, date of "
    "acquisition, acquisition date, Zukaufsdatum, Zukauf am, "
    "zugekauft am, Ankaufsdatum, Ankauf am, angekauft am, Zukauf, Ankauf, gekauft, zugekauft, angekauft, erworben, "
    "date achat, achat le, date acquisition, acheté, achetée, acheté(e), since 1, "
    "owner since 1, owner 1 since, seit 1, Besitzer seit 1, Besitzer 1 seit, depuis 1, propriétaire depuis 1, "
    "propriétaire 1 depuis",
    Field.EXIT: "exit date, date of exit, Abgangsdatum, Abgang am, abgegangen am, date de sortie, date left, "
    "left on, sorti le, "
    "exit, left, departure, Abgang, abgegangen, sortie, "
    "date of death, Todesdatum, gestorben am, verstorben am, date de décès, mort le, décédé le, died, death, "
    "gestorben, verstorben, mort, décès, date décès, date de mort, date mort, DOD, date died, "
    "Ausgangsdatum, Ausgang am, Ausgang, Austrittsdatum, Austritt am, Austritt, Abmeldedatum, Abmeldung am, Abmeldung, "
    "abgemeldet am, abgemeldet, Merzdatum, Merzung, gemerzt am, gemerzt, Abgänge, date of disposal, disposal date, "
    "disposed on, disposed, cull date, date off, off date, date sortie, "
    "Verbleib, fate, whereabouts, disposal, devenir, status, Tierstatus, statut, état, Zustand, Lebensstatus, "
    "Lebenszustand, situation",
    Field.EMBRYO: "embryo, embryo calf, stored embryo, embryo transfer, et, et calf, Embryotransfer, ET-Kalb, "
    "Embryokalb, embryon, transfert d'embryon",
    Field.STATUS: "status, Tierstatus, statut, état, Verbleib, fate, whereabouts, disposal, devenir, Zustand, "
    "Lebensstatus, Lebenszustand, " + REASONS + ", situation, lebt, "
    "lebend, lebendig, aktiv, im Bestand, alive, living, active, vivant, en vie, actif",
}  # fmt: skip
# words for sexes that stand for the sire and the dam where a sheet has none of the titles above, or beside these
PAIRS = {
    Field.SIRE: "dog, stallion, ram, tup, buck, billy, bull, boar, Rüde, Hengst, Bock, Ziegenbock, Schafbock, Widder, "
    "Bulle, Stier, Muni, Eber, Kater, Rammler, étalon, bélier, bouc, taureau, verrat, chien",
    Field.DAM: "bitch, mare, ewe, doe, nanny, cow, sow, Hündin, Stute, Aue, Ziege, Geiß, Kuh, Sau, Kätzin, Häsin, "
    "jument, brebis, chèvre, vache, truie, chienne",
}  # fmt: skip
# titles that say so of the column of exits before or behind which they stand
CAUSES = "Grund, Ursache, reason, cause, motif, raison"
# titles whose columns may have something else than exits
DOUBTFUL_EXITS = (
    "Verbleib, fate, whereabouts, disposal, devenir, status, Tierstatus, statut, état, Zustand, Lebensstatus, "
    "Lebenszustand, situation"
)
# titles whose columns say on which days animals came, or whether one was bought at all
DOUBTFUL_DAYS = (
    "Zukauf, Ankauf, gekauft, zugekauft, angekauft, erworben, bought, purchased, acquired, acheté, achetée, acheté(e)"
)
# titles of animals' names that farms have too, whose names stand in many rows
DOUBTFUL_NAMES = "nom d'élevage"
# Columns that a sheet has to have; `--columns sire=` says that there is none.
NEEDED = (Field.ID, Field.BIRTH, Field.SIRE, Field.DAM)


# clubs before whose name for ids theirs stands, as in `KC Reg. No.`
CLUBS = "KC, AKC, IKC, CKC, UKC, SKC, NZKC, ANKC, VDH, ÖKV, SKG, SHSB, GCCF, TICA, FIFe, LOSH, NHSB, RSHE, SCC"
OF_CLUBS = (
    "reg no, reg number, reg, registration no, registration number, registration, registered no, registered number, "
    "no, number, nr, Nummer, stud book no, stud book number"
)
# letters for a parent that stand before a word for the id, as `V-Ohrmarke`
SHORT = {Field.SIRE: "v", Field.DAM: "m"}
# the number that French horses have is no sire's
KNOWN_OTHERS = {plain("n° SIRE"), plain("numéro SIRE")}


def usual_titles(field: Field) -> list[str]:
    """The titles of a field as they are compared: for a parent those with a word for the id come first."""
    alone = [plain(title) for title in listed(TITLES[field])]
    if field is Field.ID:
        alone = [plain(club + of) for of in listed(OF_CLUBS) for club in listed(CLUBS)] + alone
    if field not in (Field.SIRE, Field.DAM):
        return list(dict.fromkeys(alone))
    ids = [plain(title) for title in listed(TITLES[Field.ID])]
    pairs = [plain(title) for title in listed(PAIRS[field])]
    both = [both for id in ids for one in [*alone, SHORT[field]] for both in (one + id, id + one)]
    return [one for one in dict.fromkeys(both + alone + pairs) if one not in KNOWN_OTHERS]


BETWEEN_WORDS = re.compile(r"[^\w♂♀]+")


KNOWN_TITLES: dict[str, list[str]] = {field: usual_titles(field) for field in TITLES}
KNOWN_PAIRS = {field: {plain(title) for title in listed(titles)} for field, titles in PAIRS.items()}
# titles that name a parent, and not only its sex
NAMING_PARENTS = {title for role, pairs in KNOWN_PAIRS.items() for title in KNOWN_TITLES[role] if title not in pairs}
KNOWN_DOUBTFUL = {plain(title) for title in listed(DOUBTFUL_EXITS)}
KNOWN_DOUBTFUL_NAMES = {plain(title) for title in listed(DOUBTFUL_NAMES)}
KNOWN_DOUBTFUL_DAYS = {plain(title) for title in listed(DOUBTFUL_DAYS)}
KNOWN_STATUSES, KNOWN_REASONS = {*KNOWN_TITLES[Field.STATUS]}, {plain(title) for title in listed(REASONS)}
KNOWN_CAUSES = {plain(title) for title in listed(CAUSES)}
# columns in which yes is said of the living, with what stands before the title where no is said
OF_LIVING = {
    plain(title): negation
    for negation, titles in (
        ("nicht", "lebt, lebend, lebendig, aktiv, im Bestand"), ("not", "alive, living, active"),
        ("pas", "vivant, en vie, actif"),
    )
    for title in listed(titles)
}  # fmt: skip
# what says no in such a column
NO_WORDS = {"nein", "n", "no", "non", "false", "falsch", "faux", "0"}
# columns of states, of which many are no exits
KNOWN_STATES = {*OF_LIVING} | {
    plain(title) for title in listed("status, Tierstatus, statut, état, Zustand, Lebensstatus, Lebenszustand, situation")
}  # fmt: skip


def said_of(status: str, title: str) -> str:
    """What a status says, as a cell of exits says it; more may stand behind a yes or a no, as in `nein, Wolf`."""
    if negation := OF_LIVING.get(plain(title)):
        begin = SIGN.split(status, maxsplit=1)[0].rstrip()
        word = begin if len(begin) > 1 else status
        rest = status[len(word) :]
        if word.casefold() in KNOWN_YES or word == "+":
            return title + rest
        if word.casefold() in NO_WORDS:
            return f"{negation} {title}{rest}"
    return status


ALL_KNOWN_TITLES = {title for usual in KNOWN_TITLES.values() for title in usual}


def known_titles(titles: list[str]) -> int:
    """How many titles are known."""
    return sum(plain(title) in ALL_KNOWN_TITLES for title in titles)


# so many titles are told of a sheet
MOST_TITLES = 60


def title_list(titles: Iterable[str]) -> str:
    return some_of([f"'{title}'" for title in titles if title], MOST_TITLES)


# Reads the options of `import` that say how cells are read.


def parts_of(words: list[str]) -> list[str]:
    """The parts between commas; one that has a comma itself stands in quotation marks. An end of a line is a blank, as
    it is in a sheet's cells."""
    lines = (" ".join(composed(word).splitlines()) for word in words)
    return [part for line in lines for part in next(csv.reader([line], skipinitialspace=True), [""])]


def read_given(words: list[str]) -> dict[str, str]:
    """The fields and titles of `--columns id=Ohrmarke,sire=Vater`."""
    given = {}
    for part in parts_of(words):
        field, equals, title = (piece.strip() for piece in part.partition("="))
        if not equals or field not in TITLES:
            raise Mistake(SheetFault.COLUMN_OPTION.said(part=part, fields=", ".join(TITLES)))
        given[field] = title
    return given


def read_sexes(words: list[str]) -> dict[str, str]:
    """The words and sexes of `--sexes Aue=f,Bk=m,H=mc`, each word as it is compared; any word that is known for a
    castrated male stands for one."""
    given = {}
    for part in parts_of(words):
        word, equals, sex = (piece.strip() for piece in part.partition("="))
        if not equals or not word or plain(sex) not in KNOWN_SEXES:
            raise Mistake(SheetFault.SEX_OPTION.said(part=part))
        given[sex_word(word)] = CASTRATED_MALE if plain(sex) in KNOWN_CASTRATED else KNOWN_SEXES[plain(sex)]
    return given


# Titles of several words for one thing, as `Dog/Bitch` and `gestorben/verkauft am`.

# what stands beside words of exits and tells nothing else
BESIDE_EXITS = {plain(word) for word in "am, im, den, und, oder, on, or, and, date, of, le, la, et, ou, Datum, du, de".split(", ")}


# words of which titles have the first letters alone, as `D/B`
PAIRS_OF_LETTERS = {
    frozenset(word[0].casefold() for word in pair): pair
    for pair in (["Dog", "Bitch"], ["Rüde", "Hündin"], ["Hengst", "Stute"], ["Bock", "Ziege"])
}


def words_of_sexes(title: str) -> list[str]:
    """The words of a title such as `Dog/Bitch`, or of which it has the letters; none where it doesn't name both."""
    words = BETWEEN_WORDS.split(title)
    if {KNOWN_SEXES.get(sex_word(word), "") for word in words} >= {"M", "F"}:
        return words
    return PAIRS_OF_LETTERS.get(frozenset(word.casefold() for word in words if len(word) == 1), [])


# words by which the titles of sexes and parents are known for German ones
GERMAN = re.compile(r"Geschl|Vater|Mutter|\bm\W*w\b|\bw\W*m\b", re.IGNORECASE)


def is_german(titles: Iterable[str]) -> bool:
    """Are titles of sexes and parents German?"""
    return any(map(GERMAN.search, titles))


def names_both_sexes(title: str) -> bool:
    return bool(words_of_sexes(title))


# titles of one word that name a death or a sale, and a day
TITLES_OF_DEATHS = (
    "Todesdatum", "Todestag", "Sterbedatum", "Sterbetag", "Schlachtdatum", "Schlachttag", "Schlachttermin", "DOD",
    "date décès", "date mort", "Merzdatum", "cull date",
)  # fmt: skip
DEATHS = {plain(title) for title in TITLES_OF_DEATHS}
SALE_DAYS = {plain(title) for title in ("Verkaufsdatum", "Verkaufstag", "Abgabedatum")}


# the signs of a death, and one that may be that of something else where no days stand below it
CROSS, PLUS = re.compile("[†✝✞]"), re.compile(r"\(?\+\)?(?:\s*[^\W\d_]+)?")


def words_beside_days(title: str) -> set[str]:
    return {plain(word) for word in BETWEEN_WORDS.split(title)} - BESIDE_EXITS - {""}


def names_exits_alone(title: str) -> bool:
    if plain(title) in DEATHS | SALE_DAYS:
        return True
    words = words_beside_days(title)
    return words <= KNOWN_EXITS if words else CROSS.search(title) is not None


def names_exit_days(title: str) -> bool:
    """The same of a column of days."""
    return names_exits_alone(title) or is_cross_title(title)


def is_cross_title(title: str) -> bool:
    """Is it a sign of a death, as `†` or `+ am`?"""
    sign = CROSS.search(title) or PLUS.fullmatch(title)
    return sign is not None and not words_beside_days(title)


def names_other_exits(title: str) -> bool:
    """Does a title such as `gestorben am` name exits of which none is a sale?"""
    words = {plain(word) for word in BETWEEN_WORDS.split(title)} & KNOWN_EXITS
    return plain(title) in DEATHS or is_cross_title(title) or bool(words) and words.isdisjoint(KNOWN_SALES)
