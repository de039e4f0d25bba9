"""Three lists as societies keep them, written from what such lists are like and without the words that the front desk
reads: goats in German, horses in French, dogs in English. Each has three hundred animals of which the truth is known,
and some twenty-five things that people write. `truth` says what each animal is, and `planted` what was written of it
instead, so that a test can ask: does the book have the truth, or was this row told?"""
from __future__ import annotations

import random
from dataclasses import dataclass, field, replace
from datetime import date, timedelta


@dataclass(frozen=True)
class Style:
    """How a society writes its list."""

    titles: tuple[str, ...]
    male: str
    female: str
    castrated: str
    alive: str
    died: str
    names: tuple[str, ...]
    owners: tuple[str, ...]
    day: str
    tag: str
    seed: int


@dataclass(frozen=True)
class Truth:
    """What one animal is, whatever the list says."""

    tag: str
    name: str
    sex: str
    born: date
    sire: str | None
    dam: str | None
    owner: str
    left: date | None = None


@dataclass
class SocietyList:
    """The rows of a list, what is true, and which cells were written otherwise (of a tag: the name of the thing)."""

    style: Style
    truth: dict[str, Truth]
    rows: list[list[str]] = field(default_factory=list)
    planted: dict[str, str] = field(default_factory=dict)

    def row_of(self, tag: str) -> list[str]:
        """The row of an animal."""
        return next(row for row in self.rows if row[0] == tag)

    def text(self) -> str:
        """The list as a file of semicolons."""
        return "".join(";".join(_quoted(cell) for cell in row) + "\n" for row in [list(self.style.titles), *self.rows])


def _quoted(cell: str) -> str:
    return '"' + cell.replace('"', '""') + '"' if '"' in cell or ";" in cell else cell


GOATS = Style(
    ("Ohrmarke", "Name", "Geschl.", "geb. am", "Vater", "Mutter", "Besitzer", "Abgang am", "Status"),
    "Bock", "Geiss", "Kastrat", "lebt", "tot",
    ("Chäspi", "Gemsli", "Nera", "Flöckli", "Alma", "Bruno", "Zita", "Lisi", "Moritz", "Rösli"),
    ("Meier Hans", "Caduff Reto", "Hof Bärgli", "Tscharner A.", "Fam. Derungs", "Müller Vreni"),
    "%d.%m.%Y", "CH 120.{:04d}.{:d}", 11,
)
HORSES = Style(
    ("N° UELN", "Nom", "Sexe", "Né(e) le", "Père", "Mère", "Propriétaire", "Date de sortie", "Statut"),
    "étalon", "jument", "hongre", "vivant", "mort",
    ("Éclair", "Noisette", "Hirondelle", "Vaillant", "Câline", "Libero", "Fanny", "Nagano", "Praline", "Cosinus"),
    ("Haras du Jura", "Froidevaux Luc", "Mme Queloz", "Élevage des Bois", "Frésard P.", "Ferme Chenal"),
    "%d/%m/%Y", "756001{:06d}{:02d}", 12,
)
DOGS = Style(
    ("Reg. No.", "Registered name", "Sex", "Whelped", "Sire", "Dam", "Owner", "Date left", "Status"),
    "dog", "bitch", "neutered dog", "alive", "dead",
    ("Bracken", "Heather", "Moss", "Tansy", "Rowan", "Sorrel", "Jet", "Fern", "Gyp", "Nell"),
    ("J. Armstrong", "Miss P. Hall", "Fellside Kennels", "T. & M. Boyd", "R. Nixon", "Mrs D. Teasdale"),
    "%Y-%m-%d", "AZ{:06d}{:02d}", 13,
)


def made(style: Style) -> SocietyList:
    """A clean list: thirty founders and nine years of thirty births each."""
    chance = random.Random(style.seed)
    animals: list[Truth] = []
    for number in range(300):
        year = 2012 if number < 30 else 2014 + (number - 30) // 30
        born = date(year, 2, 1) + timedelta(days=chance.randrange(90))
        older = [animal for animal in animals if animal.born.year <= year - 2 and _living(animal, year)]
        sire = chance.choice([a for a in older if a.sex == "male"]).tag if older else None
        dam = chance.choice([a for a in older if a.sex == "female"]).tag if older else None
        sex = ("male", "female")[number % 2] if number < 30 else chance.choice(["male", "female", "female"])
        left = born + timedelta(days=1500 + chance.randrange(900)) if chance.random() < 0.2 else None
        left = left if left and left < date(2024, 1, 1) else None
        tag = style.tag.format(1000 + number, number % 10)
        animals.append(Truth(tag, f"{chance.choice(style.names)} {number}", sex, born, sire, dam,
                             style.owners[number // 3 % len(style.owners)], left))
    listed = SocietyList(style, {animal.tag: animal for animal in animals})
    listed.rows = [_row(style, animal) for animal in animals]
    return listed


def _living(animal: Truth, year: int) -> bool:
    return animal.left is None or animal.left.year >= year + 1


def _row(style: Style, animal: Truth) -> list[str]:
    sex = style.male if animal.sex == "male" else style.female
    left = animal.left.strftime(style.day) if animal.left else ""
    return [animal.tag, animal.name, sex, animal.born.strftime(style.day), animal.sire or "", animal.dam or "",
            animal.owner, left, style.died if animal.left else style.alive]


TAG, NAME, SEX, BORN, SIRE, DAM, OWNER, LEFT, STATUS = range(9)

# What people write of a day that they know: the words are each language's.
DAY_WORDS = {
    "Ohrmarke": ("(lt. Besitzer)", "ca.", "Frühjahr"),
    "N° UELN": ("(selon propriétaire)", "env.", "printemps"),
    "Reg. No.": ("(acc. to owner)", "c.", "spring"),
}
LIST_WORDS = {
    "Ohrmarke": ("geschlachtet Herbst 2022", "verkauft an {}", "†", "dito", "oder", "--- Jahrgang 2019 ---",
                 "Alle Angaben ohne Gewähr", "Total"),
    "N° UELN": ("abattue automne 2022", "vendu à {}", "†", "idem", "ou", "--- Année 2019 ---",
                "Toutes les indications sont sans garantie", "Total"),
    "Reg. No.": ("put to sleep autumn 2022", "sold to {}", "†", "ditto", "or", "--- Born 2019 ---",
                 "All information without warranty", "Total"),
}


def with_planted(style: Style) -> SocietyList:
    """The list with the things that people write. Each stands in another row."""
    listed = made(style)
    _plant_days(listed)
    _plant_states(listed)
    _plant_parents_and_sexes(listed)
    _plant_rows(listed)
    return listed


def _plant(listed: SocietyList, at: int, column: int, cell: str, what: str) -> Truth:
    row = listed.rows[at]
    row[column] = cell
    listed.planted[row[TAG]] = what
    return listed.truth[row[TAG]]


def _plant_days(listed: SocietyList) -> None:
    said, about, spring = DAY_WORDS[listed.style.titles[0]]
    born = [listed.truth[row[TAG]].born for row in listed.rows]
    forms = {
        31: (f"{born[31].day}.{born[31].month}.{born[31]:%y}", "two digits of the year"),
        34: (f"{born[34].year}/{born[34].month}/{born[34].day}", "year first"),
        37: (str((born[37] - date(1899, 12, 30)).days), "a spreadsheet's number"),
        40: (f"{born[40].strftime(listed.style.day)} {said}", "a day and who says it"),
        43: (f"{about} {born[43].month}/{born[43].year}", "about a month"),
        46: (f"{spring} {born[46].year}", "a season"),
        49: (f"31.02.{born[49].year}", "a day that no month has"),
        2: ("14.05.1887", "before 1900"),
        283: ("12.04.2087", "after today"),
        52: (f"{born[52].year}", "a year alone"),
        55: ("??", "no day"),
    }
    for at, (cell, what) in forms.items():
        _plant(listed, at, BORN, cell, what)


def _plant_states(listed: SocietyList) -> None:
    slaughtered, sold, cross, *_ = LIST_WORDS[listed.style.titles[0]]
    states = {
        61: (slaughtered, "slaughtered in a season"),
        64: (sold.format("Unbekannt"), "sold to a stranger"),
        67: (sold.format(listed.style.owners[0]), "sold within the society"),
        70: (cross, "a cross"),
        73: (listed.style.died, "dead without a day"),
    }
    for at, (cell, what) in states.items():
        listed.rows[at][LEFT] = ""
        _plant(listed, at, STATUS, cell, what)
    at = next(at for at, row in enumerate(listed.rows) if at > 80 and row[LEFT])
    _plant(listed, at, STATUS, listed.style.alive, "alive, with an exit day")


def _plant_parents_and_sexes(listed: SocietyList) -> None:
    rows, either = listed.rows, LIST_WORDS[listed.style.titles[0]][4]
    name = listed.truth[rows[200][SIRE]].name
    _plant(listed, 200, SIRE, f"{rows[200][SIRE]} / {name}", "a tag and a name")
    _plant(listed, 203, SIRE, f"{rows[203][SIRE]} {either} {rows[204][SIRE]}", "one or the other")
    _plant(listed, 206, DAM, rows[206][DAM].replace("0", "O", 1), "a letter for a digit")
    unknown = _plant(listed, 209, DAM, "?", "an unknown dam")
    listed.truth[unknown.tag] = replace(unknown, dam=None)
    _plant(listed, 212, SIRE, rows[212][SIRE].replace(" ", ""), "a tag without spaces")
    busiest = max({row[DAM] for row in rows if row[DAM]}, key=lambda dam: sum(row[DAM] == dam for row in rows))
    at = next(at for at, row in enumerate(rows) if row[TAG] == busiest)
    _plant(listed, at, SEX, listed.style.male, "a dam that is called male")
    _plant(listed, 290, SEX, listed.style.castrated, "castrated")
    _plant(listed, 215, NAME, "=Alpha", "a name that begins with an equals sign")


def _plant_rows(listed: SocietyList) -> None:
    ditto, section, footer, total = (LIST_WORDS[listed.style.titles[0]][at] for at in (3, 5, 6, 7))
    _plant(listed, 220, OWNER, '"', "a ditto mark")
    _plant(listed, 224, OWNER, ditto, "a word of ditto")
    for at in (220, 224):  # the cell above is this animal's owner
        tag = listed.rows[at][TAG]
        listed.truth[tag] = replace(listed.truth[tag], owner=listed.rows[at - 1][OWNER])
    empty = [""] * len(listed.style.titles)
    listed.rows.insert(180, [section, *empty[1:]])
    listed.rows += [empty, [footer, *empty[1:]], [f"{total}: 300", *empty[1:]]]


def next_year(listed: SocietyList) -> SocietyList:
    """The same list a year later: one animal under a new tag, one dam's row gone, one exit gone, one sex changed."""
    later = SocietyList(listed.style, dict(listed.truth), [list(row) for row in listed.rows], {})
    retagged = later.rows[150]
    old = retagged[TAG]
    retagged[TAG] = listed.style.tag.format(9001, 1)
    later.planted[retagged[TAG]] = "a new tag of " + old
    mother = next(row[DAM] for row in later.rows[100:] if row[DAM] and row[DAM] not in listed.planted
                  and row[TAG] not in listed.planted)
    later.rows = [row for row in later.rows if row[TAG] != mother]
    later.planted[mother] = "a dam whose row is gone"
    gone = next(row for row in later.rows[30:] if row[LEFT] and row[TAG] not in listed.planted)
    gone[LEFT], gone[STATUS] = "", ""
    later.planted[gone[TAG]] = "an exit that is gone"
    sired = {row[SIRE] for row in later.rows}
    flipped = next(row for row in later.rows[30:] if row[TAG] in sired and row[TAG] not in listed.planted)
    flipped[SEX] = listed.style.female
    later.planted[flipped[TAG]] = "a sire that is called female"
    return later
