"""Reads the words for sexes of a sheet, also short ones whose long form the column has."""
from __future__ import annotations

import collections
import functools
import re
from collections.abc import Callable, Collection, Iterable, Mapping, Sequence
from typing import NamedTuple

from gudokeyi.domain.kinds import Field
from gudokeyi.ingest.animals import DAM_OF, SIRE_OF, SheetAnimal
from gudokeyi.ingest.findings.columns import SheetFinding
from gudokeyi.ingest.findings.sexes import (
    MANY_MORE, CastratedLetter, FemaleLetter, OneSexAlone, SexCount, SexWord, SexWordsShort,
)  # fmt: skip
from gudokeyi.ingest.findings.sheets import TextCount
from gudokeyi.ingest.texts import plain
from gudokeyi.ingest.words import (
    BESIDE_WETHERS, CASTRATED_MALE, COUNTED_SEXES, KNOWN_CASTRATED, KNOWN_CASTRATED_SHORT, KNOWN_DOUBTS, KNOWN_FEMALES,
    KNOWN_GELDED, KNOWN_NEGATIONS, KNOWN_NEUTERED, KNOWN_OF_EITHER_SEX, KNOWN_SEXES, has_word, sex_word,
)  # fmt: skip


class Meaning(NamedTuple):
    """The sex of a text, empty where it isn't known, and the word for which the text is taken where it is none
    itself."""

    sex: str
    is_castrated: bool
    word: str


NUMBER = re.compile(r"\d+[.,/]\d+")
# words of which columns have the first letters, some of which stand for another sex elsewhere
THREE_LETTERS = (
    ("Hengst", "Stute", "Wallach"), ("stallion", "mare", "gelding"), ("étalon", "jument", "hongre"),
    ("ram", "ewe", "wether"), ("buck", "doe", "wether"),
)  # fmt: skip
# the letter of weiblich, which is that of Widder and wether too, and what it stands for where it is no female
LETTER, WETHER = "w", "wether"
# the letter of a female beside which it isn't one
OF_AUE = "a"
# a form without a full stop of more letters is a word of its own
MOST_LETTERS = 3
SAID_CASTRATED = KNOWN_CASTRATED | KNOWN_CASTRATED_SHORT | KNOWN_NEUTERED
# so many animals may be named as dams by mistake, or one for many others; with so many others for each they are
FEW_MISTAKEN, FEW_MORE = 2, 5


class LetterRead(NamedTuple):
    """How the letter is read that stands beside other words for females, and these: each with the cells that have
    it."""

    letter: SexCount
    females: tuple[SexCount, ...]
    is_castrated: bool


class Sexes:
    """The words of a column, and those that are named by `--sexes`."""

    def __init__(
        self,
        texts: list[str],
        given: dict[str, str],
        of_parents: Callable[[Field], Iterable[str]] = lambda _: (),
        of_book: Callable[[], Iterable[tuple[str, str]]] = tuple,
        is_german: bool = False,
    ) -> None:
        """`of_parents` are those of its cells whose animals are sires or dams, `of_book` those whose animals the book
        has, each with the sex there; `is_german` where its list has German titles."""
        self.of_parents = of_parents
        self.of_book, self.is_german = of_book, is_german
        self.known = KNOWN_SEXES | {word: "M" if sex == CASTRATED_MALE else sex for word, sex in given.items()}
        self.given = given
        self.given_castrated = {word for word, sex in given.items() if sex == CASTRATED_MALE}
        counted = {text for text in {*texts} if NUMBER.fullmatch(text)}
        # `1.0` may be the number of a code where no `0.1` is
        is_counted = counted <= COUNTED_SEXES.keys() and ("1.0" not in counted or "0.1" in counted)
        self.counted = {text: COUNTED_SEXES[text] for text in counted if is_counted and sex_word(text) not in given}
        self.short = self.short_words(texts)
        # the column's words for animals of either sex, for which a short form may stand too
        self.of_either_sex = {*map(sex_word, {*texts})} & KNOWN_OF_EITHER_SEX - given.keys()
        # what single letters mean in this column, whatever they mean in others
        self.letters = self.letters_of_three({sex_word(text) for text in {*texts}}, given)
        self.letter: LetterRead | None = None
        if LETTER not in {*given, *self.letters}:
            self.letter = self.letter_beside_females(texts)
            self.leave_open(texts)
        # the same words stand in many cells
        self.meaning = functools.cache(self.find)
        # how often a text is taken for a known word
        self.taken_for: collections.Counter[tuple[str, str]] = collections.Counter()

    def short_words(self, texts: list[str]) -> dict[str, list[tuple[str, str]]]:
        """The sexes of the column's known words, by their first letters: for each the word and its sex."""
        found: dict[str, list[tuple[str, str]]] = {}
        for word in sorted(set(texts)):
            known, sex = sex_word(word), self.known.get(sex_word(word), "")
            for length in range(1, len(known) if sex else 0):
                found.setdefault(known[:length], []).append((word, sex))
        return found

    def letters_of_three(self, words: set[str], given: dict[str, str]) -> dict[str, str]:
        """The words of letters that stand together for a male, a female and a castrated male, where no other letter of
        the column is a sex. One that begins a word of the column for one sex stands for that; for one of them the
        column may have another word."""
        single = {word for word in words if len(word) == 1 and word.isalpha()} - given.keys()
        for three in THREE_LETTERS:
            by_letter = {plain(word)[0]: word for word in three}
            if single == by_letter.keys() or is_all_but_one(single, by_letter, words):
                longer = {letter: self.short.get(letter, []) for letter in by_letter}
                alone = {letter for letter in by_letter if len({sex for _, sex in longer[letter]}) == 1}
                return {letter: longer[letter][0][0] if letter in alone else by_letter[letter] for letter in by_letter}
        return {}

    def letter_beside_females(self, texts: list[str]) -> LetterRead | None:
        """What `W` is where the column has other words for females too: the word that begins with it, a castrated male
        beside such as `F` and `ewe`, unless dams have it too, or else a female, as it is beside `M` alone."""
        written = {sex_word(text): text for text in reversed([*dict.fromkeys(texts)])}
        sexes = {word: self.known.get(word, "") for word in written if word != LETTER}
        females = {word for word, sex in sexes.items() if sex == "F"}
        longer = self.short.get(LETTER, [])
        are_english = not females.isdisjoint(BESIDE_WETHERS)
        is_of_pair = "m" in sexes and not are_english or "M" not in sexes.values() and not are_english
        if LETTER not in written or not females or is_of_pair or "F" in {sex for _, sex in longer}:
            return None
        if longer and (are_english or not self.is_weiblich(written.keys(), longer)):
            self.letters = {LETTER: longer[0][0]}
            return None
        counts, dams = (collections.Counter(map(sex_word, cells)) for cells in (texts, self.of_parents(Field.DAM)))
        others, some = (sum(those[word] for word in females) for those in (dams, counts))
        if dams[LETTER] > max(FEW_MISTAKEN, others // MANY_MORE):
            return None
        is_likely = others > FEW_MORE * dams[LETTER] or not dams[LETTER] and counts[LETTER] <= some
        is_castrated = are_english and self.is_wether(females & BESIDE_WETHERS, is_likely)
        if is_castrated:
            self.letters = {LETTER: WETHER}
        letter, *beside = (SexCount(written[word], counts[word]) for word in (LETTER, *sorted(females)))
        return LetterRead(letter, tuple(beside), is_castrated)

    def is_weiblich(self, words: Collection[str], longer: Collection[tuple[str, str]]) -> bool:
        """Is the letter a female beside such words as Widder and Aue, which German lists have? Not beside the letter
        of the other one, nor where more of those that have it are sires than dams."""
        if OF_AUE in words or any(is_castrated(word) for word, _ in longer):
            return False
        sires, dams = (sum(sex_word(one) == LETTER for one in self.of_parents(role)) for role in (Field.SIRE, Field.DAM))
        return sires <= dams

    def is_wether(self, beside: Collection[str], is_likely: bool) -> bool:
        """Is the letter a castrated male beside these words for females? It stays what the book's own animals are that
        have it; a German list may have a few `F` beside weiblich."""
        in_book = collections.Counter(sex for text, sex in self.of_book() if sex_word(text) == LETTER)
        more_males = in_book["M"] - in_book["F"]
        if more_males < 0 or self.is_german and KNOWN_FEMALES.issuperset(beside) and more_males <= FEW_MISTAKEN:
            return False
        return is_likely or more_males > 0

    def leave_open(self, texts: list[str]) -> None:
        """Beside letters that aren't known, as `A` for Aue, `W` isn't either where no word of the column is: all are
        asked at once. It is one for females where it is the more frequent."""
        words = {*map(sex_word, {*texts})}
        others = {word for word in words - {LETTER} if len(word) == 1 and word.isalpha()}
        if LETTER not in words or not others or words & self.known.keys() != {LETTER}:
            return
        counts = collections.Counter(map(sex_word, texts))
        if OF_AUE in others or counts[LETTER] <= sum(counts[word] for word in others):
            self.known.pop(LETTER)

    def read(self, text: str) -> tuple[str, bool]:
        """The sex, or nothing where it isn't known, and whether the animal is castrated."""
        found = self.meaning(text)
        if found.word:
            self.taken_for[text, found.word] += 1
        return found.sex, found.is_castrated

    def find(self, text: str) -> Meaning:
        if text in self.counted:
            return Meaning(self.counted[text], False, "")
        word = sex_word(text)
        if word in self.given_castrated:
            return Meaning("M", True, "")
        if whole := self.letters.get(word):
            sex = self.known[sex_word(whole)]
            return Meaning(sex, sex == "M" and has_word(whole, KNOWN_CASTRATED), whole)
        sex, longer = self.known.get(word, ""), self.short.get(word, [])
        taken_for, meant = "", [text]
        if not sex and len({sex for _, sex in longer}) == 1 and self.is_short(text):
            (taken_for, sex), meant = longer[0], [whole for whole, _ in longer]
        elif not sex:
            taken_for, sex = self.among_words(text)
            meant = [f"{text} {self.letters.get(plain(taken_for), '')}"]
        return Meaning(sex, sex == "M" and all(map(is_castrated, meant)), taken_for)

    def is_short(self, text: str) -> bool:
        """Is a text a short form, and of no word for animals of either sex? One that is such a word, as `Kalb` beside
        `Kalbin`, is none."""
        word = sex_word(text)
        if word in KNOWN_OF_EITHER_SEX or any(one.startswith(word) for one in self.of_either_sex):
            return False
        return len(word) <= MOST_LETTERS or text.endswith(".")

    def among_words(self, text: str) -> tuple[str, str]:
        """A word of the text and its sex, where that is the only one in it, as in `Rüde (kastriert)`; that of one that
        was castrated since, as in `H (ex étalon)`, with what it was."""
        parts = [word for word in re.split(r"[\s,;/()]+", text) if any(map(str.isalpha, word))]
        words = [word for word in parts if len(plain(word)) > 1 or word in "mwfMWF"]
        found = {word: self.sex_within(word, words) for word in words if plain(word) in self.known}
        # `F (kastr.)` isn't of two sexes
        found = {word: sex for word, sex in found.items() if plain(word) not in KNOWN_NEUTERED} or found
        is_letter = len(words) == 1 and len(plain(words[0])) == 1
        if len(parts) < 2 or is_letter or len(set(found.values())) != 1:
            return "", ""
        former = (f"{one} {word}" for one, word in zip(words, words[1:]) if plain(one + word) in KNOWN_CASTRATED)
        first, sex = next(iter(found.items()))
        return next(former, first), sex

    def sex_within(self, word: str, words: list[str]) -> str:
        """That of a word of a text: of a letter the one of the column, or of a word for which it stands there, as in
        `W (wether)`; what is gelded isn't female."""
        letter, others = plain(word), [plain(other) for other in words if other != word]
        if letter == LETTER:
            longer = {self.known[other] for other in others if other[:1] == letter and other in self.known}
            longer |= {"M"} if not KNOWN_GELDED.isdisjoint(others) and KNOWN_NEGATIONS.isdisjoint(others) else set()
            if len(longer) == 1:
                return longer.pop()
        return self.known[plain(self.letters.get(letter, "")) or letter]

    def said_as(self, text: str, word: str) -> str:
        """The word for which a text is taken, or nothing where it says by itself that the male is castrated."""
        return word if is_castrated(word) or not self.meaning(text).is_castrated else ""

    def told(self, title: str) -> list[SheetFinding]:
        """Which words are taken for others, and how a letter is read, in a column with this title."""
        counts = [(*taken, count) for taken, count in sorted(self.taken_for.items())]
        # of that letter it is told apart
        apart = WETHER if self.letter else ""
        taken = tuple(SexWord(TextCount(one, n), self.said_as(one, word)) for one, word, n in counts if word != apart)
        told: list[SheetFinding] = [SexWordsShort(taken)] if taken else []
        if self.letter:
            kind = CastratedLetter if self.letter.is_castrated else FemaleLetter
            told.append(kind(title, self.letter.letter, self.letter.females))
        return told


def sexes_of_parents(column: Callable[[str], list[str]], role: Field) -> list[str]:
    """The cells for the sexes of rows whose ids or names are sires, or dams, by the texts of the columns."""
    parents = {*map(str.casefold, {*column(role)})} - {""}
    rows = zip(*map(column, (Field.ID, Field.NAME, Field.SEX)))
    return [sex for id, name, sex in rows if id.casefold() in parents or name.casefold() in parents]


def has_letter_beside_females(texts: Collection[str]) -> bool:
    """Is the letter among these, and a word for females beside which it is none?"""
    words = {*map(sex_word, texts)}
    return LETTER in words and not BESIDE_WETHERS.isdisjoint(words)


def sexes_in_book(column: Callable[[str], list[str]], in_book: Mapping[str, str]) -> list[tuple[str, str]]:
    """The cells for the sexes of rows whose animals the book has, by their ids, each with the sex there."""
    return [(sex, in_book[id]) for id, sex in zip(column(Field.ID), column(Field.SEX)) if id in in_book]


def one_sex_alone(
    title: str, texts: Sequence[str], sexes: Sexes, animals: Collection[SheetAnimal]
) -> list[SheetFinding]:
    """What is told of a column whose words mean one sex alone, of which one may stand for the other."""
    counts = collections.Counter(texts)
    read = {text: sex for text in counts if (sex := sexes.meaning(text).sex)}
    if len({*read.values()}) != 1:
        return []
    words = collections.Counter[str]()
    for text in read:
        words[sex_word(text)] += counts[text]
    [sex] = {*read.values()}
    is_likely = sex == "F" and may_be_male(words, sexes.given)
    several = {word for word in words if words[word] > 1}
    is_open = len(several) > 1 and not several <= sexes.given.keys()
    if not is_likely and not (is_open and are_both_parents(sex, animals)):
        return []
    # how a word is written first
    written = {sex_word(text): text for text in reversed(read)}
    told = tuple(SexCount(written[word], count) for word, count in words.most_common())
    return [OneSexAlone(title, sex, told, written[LETTER] if is_likely else "")]


def may_be_male(words: Collection[str], given: Mapping[str, str]) -> bool:
    """Is a letter for females named that is none elsewhere, and stands another one for these too?"""
    letters = [word for word, sex in given.items() if sex == "F" and len(word) == 1 and KNOWN_SEXES.get(word) != sex]
    return LETTER in words and LETTER not in given and not {*letters}.isdisjoint(words)


def parents_by_text(animals: Collection[SheetAnimal]) -> dict[str, tuple[int, int]]:
    """How many animals with each text for a sex are sires, and how many dams, by their ids or their names."""
    sires, dams = ({*map(str.casefold, map(of, animals))} - {""} for of in (SIRE_OF, DAM_OF))
    found = collections.defaultdict[str, collections.Counter[str]](collections.Counter)
    for one in animals:
        called = {one.id.casefold(), one.name.casefold()}
        found[one.cells.get(Field.SEX, "")].update(sires=not called.isdisjoint(sires), dams=not called.isdisjoint(dams))
    return {text: (counts["sires"], counts["dams"]) for text, counts in found.items()}


def are_both_parents(sex: str, animals: Collection[SheetAnimal]) -> bool:
    """Are animals that have one sex sires, and others dams, by their ids or their names?"""
    called = {text.casefold() for one in animals if one.sex == sex for text in (one.id, one.name) if text}
    return all(any(of(one).casefold() in called for one in animals) for of in (SIRE_OF, DAM_OF))


def is_all_but_one(single: set[str], by_letter: Mapping[str, str], words: set[str]) -> bool:
    """Are letters, none of which is known by itself, all of three but one, of whose kind the column has a word?"""
    others = by_letter.keys() - single
    if len(others) != 1 or not single < by_letter.keys() or not single.isdisjoint(KNOWN_SEXES):
        return False
    meant = plain(by_letter[others.pop()])
    kind = KNOWN_SEXES[meant], meant in KNOWN_CASTRATED
    return any((KNOWN_SEXES.get(word), word in KNOWN_CASTRATED) == kind for word in words)


def is_unsure(text: str) -> bool:
    """Does a text for a sex say that it isn't sure, as `w?` or `prob. female`?"""
    return "?" in text or " " in text and has_word(text, KNOWN_DOUBTS)


def is_castrated(text: str) -> bool:
    """Does a text for a male say that it is castrated?"""
    return has_word(text, SAID_CASTRATED) and not has_word(text, KNOWN_NEGATIONS)
