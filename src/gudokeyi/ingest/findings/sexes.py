"""What is found of the words for sexes of a sheet: each kind as data, and in words."""
from __future__ import annotations

import itertools
from collections.abc import Mapping
from dataclasses import dataclass

from gudokeyi.domain.changes import Option
from gudokeyi.domain.findings import Severity, Suggestion
from gudokeyi.domain.wording import SEXES, Counted, OptionalPart, Text, Told
from gudokeyi.ingest.findings.columns import SheetFinding
from gudokeyi.ingest.findings.sheets import CellsUnread, TextCount, sexes_of, sexes_of_all, sexes_that_may_be

# one offspring may name a parent by mistake for so many others
MANY_MORE = 20


@dataclass(frozen=True, slots=True)
class SexWord(Told):
    """A word for a sex that is taken for a longer one of the same column, and how often; nothing as the longer one of a
    text that says by itself that the male is castrated."""

    word: TextCount
    whole: str

    message = Text("{word} as {maybe_whole}{maybe_castrated}")
    parts = {
        "maybe_whole": OptionalPart("'{whole}'"),
        "maybe_castrated": OptionalPart("a castrated male", when="is_castrated"),
    }

    def values(self) -> Mapping[str, object]:
        return {"is_castrated": not self.whole}


@dataclass(frozen=True, slots=True)
class UnknownSex(Told):
    """A text for a sex that isn't known, how many animals have it, and how many of these are sires and dams."""

    text: str
    animals: int
    sires: int
    dams: int

    message = Counted(
        "'{text}' ({animals} animal{maybe_sires}{maybe_dams})", "'{text}' ({animals} animals{maybe_sires}{maybe_dams})",
        "animals",
    )  # fmt: skip
    parts = {
        "maybe_sires": OptionalPart(", {sires} of them sires", "sires", ", {sires} of them a sire", "sires"),
        "maybe_dams": OptionalPart(", {dams} of them dams", "dams", ", {dams} of them a dam", "dams"),
    }

    def sex(self) -> str:
        """What their offspring say; empty where they don't."""
        if self.sires > MANY_MORE * self.dams:
            return "m"
        return "f" if self.dams > MANY_MORE * self.sires else ""


@dataclass(frozen=True, slots=True)
class SexesUnknown(CellsUnread):
    """None of the words for sexes of a column can be read."""

    sexes: tuple[UnknownSex, ...] = ()

    code = "sexes unknown"
    message = Text("no word for a sex of the column '{cells_title}' is known: {sexes}: {advice}")
    page_message = Text("no word for a sex of the column '{cells_title}' is known: {sexes}{maybe_advice}")

    def suggestions(self) -> tuple[Suggestion, ...]:
        """All that the offspring say, and each word by itself; of two words that have none each is the other's sex."""
        by_offspring = {one.text: one.sex() for one in self.sexes if one.sex()}
        if not by_offspring and len(self.sexes) == 2:
            texts = [one.text for one in self.sexes]
            return sexes_of_all(dict(zip(texts, "mf"))) + sexes_of_all(dict(zip(texts, "fm")))
        at_once = sexes_of_all(by_offspring) if len(by_offspring) > 1 else ()
        others = (one.text for one in self.sexes if not (one.sex() or any(map(str.isdigit, one.text))))
        single = (sexes_of(text, sex) for text, sex in by_offspring.items())
        return (*at_once, *itertools.chain(*single, *map(sexes_that_may_be, others)))


@dataclass(frozen=True, slots=True)
class SexMarksUnread(SheetFinding):
    """Two columns, as `m` and `w`, have marks for the sexes, and no column has words for them: how many marks, and the
    first line with one."""

    male: str
    female: str
    count: int
    line: int

    decides_much = True
    severity = Severity.ANIMALS
    code = "sex marks unread"
    message = Text(
        "no sex is read: the columns '{male}' and '{female}' have {count} marks for it, the first in line {line}, but "
        "sexes are read from one column with words such as m and f: each sex is inferred; give the list such a column"
    )


@dataclass(frozen=True, slots=True)
class SexWordsShort(SheetFinding):
    taken: tuple[SexWord, ...]

    decides_much = True
    code = "sex words short"
    message = Text("words for sexes are read as others of the column: {taken}")


@dataclass(frozen=True, slots=True)
class SexesUnsure(SheetFinding):
    """Cells that say that a sex isn't sure, as `w?`: how many, and the first."""

    title: str
    count: int
    text: str
    line: int

    code = "sexes unsure"
    message = Counted(
        "{count} cell of the column '{title}' has a sex that isn't certain, '{text}' in line {line}: it is inferred, "
        "and taken where nothing else says the sex",
        "{count} cells of the column '{title}' have a sex that isn't certain, the first '{text}' in line {line}: it is "
        "inferred, and taken where nothing else says the sex",
        "count",
    )


@dataclass(frozen=True, slots=True)
class SexCount(Told):
    """A word for a sex, and how many animals have it."""

    text: str
    animals: int

    message = Counted("'{text}' ({animals} animal)", "'{text}' ({animals} animals)", "animals")


@dataclass(frozen=True, slots=True)
class OneSexAlone(SheetFinding):
    """All words of a column mean one sex, though one may stand for the other; `likely` is the one that does."""

    title: str
    sex: str
    counts: tuple[SexCount, ...]
    likely: str = ""

    decides_much = True
    code = "one sex alone"
    message = Text(
        "each sex of the column '{title}' is read as {sex}: {counts}: does one of these words stand for {other}"
        "{maybe_likely}?"
    )
    parts = {
        "maybe_likely": OptionalPart(", '{likely}' as for Widder or wether"),
    }

    def values(self) -> Mapping[str, object]:
        return {"sex": SEXES.get(self.sex, self.sex), "other": SEXES[self.other()]}

    def other(self) -> str:
        return "F" if self.sex == "M" else "M"

    def suggestions(self) -> tuple[Suggestion, ...]:
        words = [self.likely] if self.likely else [one.text for one in self.counts]
        sex = self.other().lower()
        said = [(word, Option("--sexes", f"{word}={sex}")) for word in words if not {",", "="} & {*word}]
        return tuple(Suggestion(f"if '{word}' is {SEXES[self.other()].value}", (option,)) for word, option in said)


@dataclass(frozen=True, slots=True)
class CastratedLetter(SheetFinding):
    """A letter that stands for females elsewhere, as `W`, is read as a castrated male, since the column has other words
    for females."""

    title: str
    letter: SexCount
    females: tuple[SexCount, ...]

    decides_much = True
    code = "castrated letter"
    message = Text(
        "{letter} of the column '{title}' is read as a castrated male, as for wether or Wallach, since females are "
        "written differently there: {females}"
    )

    def suggestions(self) -> tuple[Suggestion, ...]:
        return sexes_of(self.letter.text, "f", "m")


@dataclass(frozen=True, slots=True)
class FemaleLetter(SheetFinding):
    """The same of a letter that is read as a female."""

    title: str
    letter: SexCount
    females: tuple[SexCount, ...]

    decides_much = True
    code = "female letter"
    message = Text(
        "{letter} of the column '{title}' is read as female, as for weiblich, though females are written differently "
        "there too: {females}"
    )

    def suggestions(self) -> tuple[Suggestion, ...]:
        return sexes_of(self.letter.text, "mc", "m")


@dataclass(frozen=True, slots=True)
class CastrationsRead(SheetFinding):
    """A column such as `Kastriert am`, by which so many males are castrated whose sexes don't say it; how many other
    cells of it say neither yes nor no, and the first of them."""

    title: str
    count: int
    others: int
    line: int
    text: str

    code = "castrations read"
    message = Counted(
        "the column '{title}' says that {count} male is castrated whose sex doesn't: it counts as castrated, without "
        "the day{maybe_others}",
        "the column '{title}' says that {count} males are castrated whose sexes don't: they count as castrated, "
        "without the days{maybe_others}",
        "count",
    )
    parts = {
        "maybe_others": OptionalPart(
            "; {others} other cells of it tell of no castration, the first is '{text}' in line {line}",
            one="; another cell of it tells of no castration: '{text}' in line {line}", value="others",
        ),
    }


@dataclass(frozen=True, slots=True)
class CastratedFemales(SheetFinding):
    """Cells of such a column that tell of females: how many, and the first."""

    title: str
    count: int
    line: int
    text: str

    code = "castrated females"
    message = Counted(
        "the column '{title}' says that {count} female is castrated, '{text}' in line {line}: it stays a female; if it "
        "is a castrated male, write that as its sex, as male castrated",
        "the column '{title}' says that {count} females are castrated, the first '{text}' in line {line}: they stay "
        "females; if one is a castrated male, write that as its sex, as male castrated",
        "count",
    )


@dataclass(frozen=True, slots=True)
class CastratedWithoutSex(SheetFinding):
    """The same of animals whose sex no cell says."""

    title: str
    count: int
    line: int
    text: str

    code = "castrated without sex"
    message = Counted(
        "the column '{title}' says that {count} animal is castrated whose sex no cell says, '{text}' in line {line}: "
        "it counts as not castrated; write its sex, as male castrated",
        "the column '{title}' says that {count} animals are castrated whose sexes no cell says, the first '{text}' in "
        "line {line}: they count as not castrated; write their sexes, as male castrated",
        "count",
    )
