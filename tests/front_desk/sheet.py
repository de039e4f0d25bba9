"""A secretary's sheet of 200 animals, the same each time, with an own grandparent, a wrong sex and a row without a
day."""
from __future__ import annotations

import csv
import fractions
import functools
import io
import random

TITLES = [
    "Ohrmarke",
    "Name",
    "Geschlecht",
    "Geburtsdatum",
    "Vater",
    "Mutter",
    "Besitzer",
    "Abgang",
    "Embryo",
    "Bemerkung",
]
OWNERS = ["Hof Süd, Müller", "Jörg Weiß", "Groß-Ähren", "Käthe Löw", ""]
NAMES = ["Bärbel", "Änne", "Löwe", "Süße", "Gräfin", "Jürgen", "Flöckchen", "Rößl", "Ümit", "Mäxle"]


def german(year: int, month: int, day: int) -> str:
    return f"{day:02}.{month:02}.{year}"


def clean_rows() -> list[dict[str, str]]:
    """200 animals in order of birth: 30 founders, and 170 calves of the years 2000 to 2016."""
    chance = random.Random(34)
    rows: list[dict[str, str]] = []

    def add(year: int, sex: str, sire: str, dam: str) -> None:
        at = len(rows) + 1
        born = german(year, 1 + at % 12, 1 + at * 7 % 28)
        left = german(2018, 1 + at % 12, 3) if year < 2003 and at % 3 == 0 else ""
        values = [
            f"DE-{year % 100:02}/{at:03}",
            NAMES[at % 10] + f" {at}",
            sex,
            born,
            sire,
            dam,
            OWNERS[at % 5],
            left,
            "",
            "",
        ]
        rows.append(dict(zip(TITLES, values)))

    for at in range(30):
        add(1998, "m" if at < 8 else "w", ["", "unbekannt", "-"][at % 3], ["", "Unbekannt", "0"][at % 3])
    for year in range(2000, 2017):
        parents = [row for row in rows if year - 8 <= int(row["Geburtsdatum"][-4:]) <= year - 2]
        bulls = [row for row in parents if row["Geschlecht"] == "m"][-7:]
        cows = [row for row in parents if row["Geschlecht"] != "m"]
        for at in range(10):
            sire = chance.choice(bulls)["Ohrmarke"] if chance.random() < 0.93 else "unbekannt"
            dam = chance.choice(cows)["Ohrmarke"] if chance.random() < 0.93 else ""
            add(year, "m" if at < 4 else "weiblich", sire, dam)
    return rows


class Secretary:
    """Her sheet: the clean rows with an own grandparent, a wrong sex, a row without a day and a parent without a
    row."""

    def __init__(self) -> None:
        self.rows = clean_rows()
        by_id = {row["Ohrmarke"]: row for row in self.rows}
        calf = next(
            row
            for row in self.rows
            if row["Vater"] in by_id and by_id[row["Vater"]]["Vater"] in by_id and row["Geschlecht"] == "weiblich"
        )
        self.grandchild = calf["Ohrmarke"]
        self.grandsire = by_id[calf["Vater"]]["Vater"]
        by_id[self.grandsire]["Mutter"] = self.grandchild
        self.misled = self.rows[150]["Ohrmarke"]
        self.cow = next(row["Ohrmarke"] for row in self.rows[30:60] if row["Geschlecht"] == "weiblich")
        self.rows[150]["Vater"] = self.cow
        dams = [row["Mutter"] for row in self.rows]
        undated = next(row for row in self.rows[60:] if row["Ohrmarke"] in dams and row["Vater"] in by_id)
        self.undated, undated["Geburtsdatum"] = undated["Ohrmarke"], ""
        self.imported = "IMP 7 <Zürich>"
        self.rows[120]["Vater"] = self.imported
        random.Random(7).shuffle(self.rows)

    def line_of(self, id: str) -> int:
        return next(line for line, row in enumerate(self.rows, 2) if row["Ohrmarke"] == id)

    def parents(self) -> dict[str, tuple[str, str]]:
        """The parents that are to stand in the book."""
        ids = {row["Ohrmarke"] for row in self.rows} | {self.imported}
        found = {
            row["Ohrmarke"]: [row[role] if row[role] in ids else "" for role in ("Vater", "Mutter")]
            for row in self.rows
        }
        found[self.grandsire][1] = ""
        found[self.misled][0] = ""
        return {id: (sire, dam) for id, (sire, dam) in found.items()} | {self.imported: ("", "")}

    def coefficients(self) -> dict[str, fractions.Fraction]:
        """By the tabular method, over the ids."""
        parents = self.parents()

        @functools.cache
        def generation(id: str) -> int:
            return 1 + max((generation(parent) for parent in parents[id] if parent), default=0)

        @functools.cache
        def entry(one: str, other: str) -> fractions.Fraction:
            if not one or not other:
                return fractions.Fraction(0)
            if one == other:
                return 1 + entry(*parents[one]) / 2
            older, younger = sorted((one, other), key=lambda id: (generation(id), id))
            return (entry(older, parents[younger][0]) + entry(older, parents[younger][1])) / 2

        return {id: entry(*parents[id]) / 2 for id in parents}


def sheet_text(rows: list[dict[str, str]], separator: str = ";") -> str:
    text = io.StringIO()
    writer = csv.DictWriter(text, list(rows[0]), delimiter=separator, lineterminator="\r\n")
    writer.writeheader()
    writer.writerows(rows)
    return text.getvalue()
