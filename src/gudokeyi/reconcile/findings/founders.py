"""Parents without a line of whom it is asked whether they are founders: each kind as data, and in words."""
from __future__ import annotations

from collections.abc import Mapping
from dataclasses import dataclass

from gudokeyi.domain.changes import Option
from gudokeyi.domain.findings import ANYWAY, Obstacle, Suggestion
from gudokeyi.domain.wording import Counted

# so many words are suggested one by one
MOST_WORDS = 4


@dataclass(frozen=True, slots=True)
class WordsAsParents(Obstacle):
    """Words without a line that are parents of several animals, and with where the first of them stand."""

    words_found: tuple[str, ...]
    told: str

    code = "words as parents"
    message = Counted(
        "{count} word has no line and is a parent of several animals: {told}. To take an unknown parent for an "
        "animal changes coefficients",
        "{count} words have no line and are parents of several animals: {told}. To take an unknown parent for an "
        "animal changes coefficients",
        "count",
    )

    def values(self) -> Mapping[str, object]:
        return {"count": len(self.words_found)}

    def suggestions(self) -> tuple[Suggestion, ...]:
        several = len(self.words_found) > 1
        words = [word for word in self.words_found if "," not in word][:MOST_WORDS]
        unknown = [Suggestion(f"if '{word}' means an unknown parent", (Option("--unknown", word),)) for word in words]
        known = Option("--known", ",".join(words)) if len(words) == len(self.words_found) else ANYWAY
        return *unknown, Suggestion("if they are animals" if several else "if it is an animal", (known,))


@dataclass(frozen=True, slots=True)
class ManyWithoutLine(Obstacle):
    """Many parents have no line, though others have; the first of them are told."""

    lacking: int
    parents: int
    told: str

    code = "many without line"
    message = Counted(
        "{lacking} of {parents} parents has no line, though others have: {told}. To take founders in their place "
        "changes coefficients: are lines missing, or are ids written differently?",
        "{lacking} of {parents} parents have no line, though others have: {told}. To take founders in their place "
        "changes coefficients: are lines missing, or are ids written differently?",
        "lacking",
    )

    def suggestions(self) -> tuple[Suggestion, ...]:
        return (Suggestion("if they are founders", (ANYWAY,)),)


@dataclass(frozen=True, slots=True)
class ParentsInPart(Obstacle):
    """No parent has a line, and most have the digits of an id; the first of them are told."""

    parents: int
    meant: int
    told: str

    code = "parents in part"
    message = Counted(
        "none of {parents} parent has a line, and {meant} have the digits of an id: {told}. To take founders in "
        "their place changes coefficients: write whole ids",
        "none of {parents} parents has a line, and {meant} have the digits of an id: {told}. To take founders in "
        "their place changes coefficients: write whole ids",
        "parents",
    )

    def suggestions(self) -> tuple[Suggestion, ...]:
        return (Suggestion("if they are founders", (ANYWAY,)),)


@dataclass(frozen=True, slots=True)
class ParentsCut(Obstacle):
    """Parents without a line that are an id once they begin or end as many ids do; the first of them are told."""

    parents: int
    told: str

    code = "parents cut"
    message = Counted(
        "{parents} parent has no line, and lacks what many ids begin or end with: {told}. To take "
        "founders in their place changes coefficients: write whole ids",
        "{parents} parents have no line, and lack what many ids begin or end with: {told}. To take "
        "founders in their place changes coefficients: write whole ids",
        "parents",
    )

    def suggestions(self) -> tuple[Suggestion, ...]:
        return (Suggestion("if they are founders", (ANYWAY,)),)
