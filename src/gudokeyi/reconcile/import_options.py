"""The options of an import, and what a book remembers of how its sheets are read: options that needn't be given again,
how owners are written, and words for an unknown parent."""
from __future__ import annotations

import datetime
import pathlib
import re
from collections.abc import Container, Mapping, Sequence
from dataclasses import dataclass, field, replace
from typing import Any

from gudokeyi.domain.changes import Option
from gudokeyi.domain.findings import Call, quoted
from gudokeyi.domain.kinds import Field, Remembered
from gudokeyi.domain.messages import Mistake
from gudokeyi.domain.options import AS_STORED, IMPORT, Described, Kind
from gudokeyi.domain.requests import refuse_text
from gudokeyi.domain.settings import Setting
from gudokeyi.ingest.titles import TITLES, parts_of, read_given
from gudokeyi.ingest.texts import clean, listed, plain
from gudokeyi.ingest.workbooks import NamedBefore
from gudokeyi.reconcile.limits import APART, YOUNGEST, Limits
from gudokeyi.reconcile.messages import ImportFault
from gudokeyi.store.book import Book
from gudokeyi.store.settings import settings_of
from gudokeyi.store.state import Meaning, renamings

# What is wished of an import: the options of the word `import`.


@dataclass(frozen=True)
class ImportOptions:
    """The options of an import, as the word `import` has them: `gudokeyi import --help` says what each does. Texts are
    those that stand behind the words, days and bounds are days and numbers of them. `gudokeyi.Book` sets `book` and
    `preview` itself."""

    book: pathlib.Path = pathlib.Path("book")
    columns: list[str] = field(default_factory=list)
    unknown: list[str] = field(default_factory=list)
    sexes: list[str] = field(default_factory=list)
    breed: str = ""
    country: str = ""
    # the day on which owners changed, if it isn't inferred
    day: datetime.date | None = None
    strict: bool = False
    drop_gone: bool = False
    semicolons: bool = False
    # of a pedigree: the animals that are taken with their ancestors, and whether links may be left out
    keep: pathlib.Path | None = None
    leave_out: bool = False
    worksheet: str = ""
    month_first: bool = False
    # take also what looks like another sheet than the book's
    anyway: bool = False
    # tell what would change, and write nothing
    preview: bool = False
    youngest: int | None = None
    apart: int | None = None
    known: list[str] = field(default_factory=list)
    owners: list[str] = field(default_factory=list)
    # days with / have the day first, whatever the book remembers
    day_first: bool = False
    # the token of the form by which a sheet is taken, empty for none
    form: str = ""
    # words of rows that are no animals, and of those that are
    no_animal: list[str] = field(default_factory=list)
    animal: list[str] = field(default_factory=list)
    # the sheet has new rows alone
    append: bool = False
    # ids that animals of the book have from now on
    new_tags: list[str] = field(default_factory=list)
    # other columns that are kept, as `CAE=choice`
    own: list[str] = field(default_factory=list)

    @classmethod
    def of(cls, book: pathlib.Path, given: Mapping[str, Any]) -> ImportOptions:
        """Those of a book's folder by the names of the options; what is none isn't given."""
        return cls(book, **{IMPORT[name].attribute: value for name, value in given.items() if value is not None})

    def options(self) -> tuple[Option, ...]:
        """The options as they were given, but for the book."""
        return tuple(option for name in AS_STORED for option in self.given(IMPORT[name]))

    def given(self, one: Described) -> list[Option]:
        """What was given of an option."""
        value = getattr(self, one.attribute)
        if one.kind is Kind.FLAG:
            return [Option(one.option)] * value
        words = value if isinstance(value, list) else [] if value in (None, "") else [value]
        return [Option(one.option, str(word)) for word in words]

    def call(self, *file: str) -> Call:
        return Call(file, self.book, self.options())


# What a book remembers of how its sheets are read: options that needn't be given again, and how owners are written.

RememberedWords = dict[Remembered, list[str]]
# of these options the last word holds
LAST_HOLDS = (Remembered.MONTH_FIRST, Remembered.YOUNGEST, Remembered.APART)
# what stands beside a word of rows that are no animals, and the option that has it
NO_ANIMAL = "no animal"
MEANINGS = {Remembered.TOLD: NO_ANIMAL}
WITH_MEANINGS = (Remembered.COLUMNS, Remembered.TOLD)
# parts the texts of the rows that had the word behind it; so many are kept
AND_TEXT, MOST_TEXTS = "\n", 9
OPTIONS = {Remembered.TOLD: "--no-animal"}


def with_settings(book: Book, import_options: ImportOptions) -> ImportOptions:
    """The options, with the words for unknown parents of the society's settings where none are given. The letters of
    its numbers are no wish: they are for new numbers alone."""
    settings = settings_of(book)
    unknown = [settings[Setting.UNKNOWN]] * bool(settings[Setting.UNKNOWN])
    return replace(import_options, unknown=import_options.unknown or unknown)


def remember(book: Book, import_options: ImportOptions) -> RememberedWords:
    """The words of the options that say how cells are read: those that the book remembers, and then those that are
    given now, which stay in the book."""
    now = given_now(import_options)
    before = {kind: [one.word for one in book.remembered if one.what is kind] for kind in now}
    both = {kind: [word for word in before[kind] if word not in now[kind]] + now[kind] for kind in now}
    for kind in LAST_HOLDS:
        both[kind] = both[kind][-1:]
    # a word is known or unknown, as it is said now
    both[Remembered.UNKNOWN] = without(both[Remembered.UNKNOWN], import_options.known)
    both[Remembered.KNOWN] = without(both[Remembered.KNOWN], import_options.unknown)
    animals, told = {plain(word) for word in parts_of(import_options.animal)}, texts_of_no_animals(book)
    both[Remembered.TOLD] = [word for word in both[Remembered.TOLD] if plain(word) not in animals]
    if import_options.day_first:
        both[Remembered.MONTH_FIRST] = []
    others = [one for one in book.remembered if one.what not in now]
    meanings = {one.word: one.meaning for one in book.remembered if one.what is Remembered.COLUMNS}
    meanings |= {word: AND_TEXT.join([NO_ANIMAL, *texts]) for word, texts in told.items()}
    book.remembered = others + [
        Meaning(kind, word, meanings.get(word, MEANINGS.get(kind, "")) if kind in WITH_MEANINGS else "")
        for kind, words in both.items() for word in words
    ]  # fmt: skip
    return both


def texts_of_no_animals(book: Book) -> dict[str, list[str]]:
    """The texts of the rows that had a word by which they are no animals, when they were left out last."""
    told = {one.word: one.meaning.split(AND_TEXT)[1:] for one in book.remembered if one.what is Remembered.TOLD}
    return {word: texts for word, texts in told.items() if texts}


def remember_no_animals(book: Book, left_out: Mapping[str, Sequence[str]], taken: Container[str]) -> None:
    """The texts of the rows that are left out, beside the words by which they are; a word of an id that another row has
    now, which is taken, is forgotten."""
    kept = list[Meaning]()
    for one in book.remembered:
        words = [plain(word) for word in parts_of([one.word])] if one.what is Remembered.TOLD else []
        texts = [text for word in words for text in left_out.get(word, ())]
        if texts:
            one = one._replace(meaning=AND_TEXT.join([NO_ANIMAL, *texts[:MOST_TEXTS]]))
        if not any(word in taken for word in words):
            kept.append(one)
    book.remembered = kept


def remember_columns(book: Book, titles: Mapping[str, str], exits: Sequence[str]) -> None:
    """The titles of the sheet's columns, by field, and those of all its columns of exits; those of other fields stay,
    and so does what is as it was."""
    numbered = {f"{Field.EXIT} {at}" if at > 1 else Field.EXIT.value: title for at, title in enumerate(exits, 1)}
    before = {one.word: one for one in book.remembered if one.what is Remembered.COLUMN}
    columns = {word: one for word, one in before.items() if not exits or word in TITLES}
    titles = {**titles, **numbered}
    columns |= {field: Meaning(Remembered.COLUMN, field, title) for field, title in titles.items()}
    book.remembered = [one for one in book.remembered if one.what is not Remembered.COLUMN] + [*columns.values()]


def remember_refused(
    book: Book, import_options: ImportOptions, refused: Mapping[str, tuple[str, int | None]]
) -> None:  # fmt: skip
    """The titles of columns that aren't read, though they could be, and the exits of which some tell: beside each word
    by which it was said now that no column has their fields."""
    for at, one in enumerate(book.remembered):
        if one.what is Remembered.COLUMNS and one.word in import_options.columns:
            fields = [name for name, title in read_given([one.word]).items() if not title and name in refused]
            now = {f"{name}={refused[name][0]}": refused_column(name, *refused[name]) for name in fields}
            before = [part for part in parts_of([one.meaning]) if part and column_of(part)[0] not in now]
            book.remembered[at] = one._replace(meaning=",".join(map(quoted, [*before, *now.values()])))


# behind a column of exits stands of how many it told
COUNTED = re.compile(r"(?P<column>.*) \((?P<count>\d+)\)")


def refused_column(name: str, title: str, exits: int | None) -> str:
    return f"{name}={title}" if exits is None else f"{name}={title} ({exits})"


def refused_columns(book: Book) -> dict[str, int | None]:
    """The columns of which it was said that they don't have what their titles say, as `exit=Status`, with the number of
    exits of which they told when that was said last, where it is known."""
    said = parts_of([one.meaning for one in book.remembered if one.what is Remembered.COLUMNS and one.meaning])
    return dict(map(column_of, said))


def column_of(part: str) -> tuple[str, int | None]:
    found = COUNTED.fullmatch(part)
    return (found["column"], int(found["count"])) if found else (part, None)


# stands in no title of a worksheet
BETWEEN_WORKSHEETS = "/"


def worksheet_before(book: Book) -> NamedBefore:
    """The worksheet that somebody named last."""
    found = [one for one in book.remembered if one.what is Remembered.WORKSHEET]
    if not found:
        return NamedBefore()
    return NamedBefore(found[-1].word, frozenset(found[-1].meaning.split(BETWEEN_WORKSHEETS)))


def remember_worksheet(book: Book, named: str, worksheets: tuple[str, ...]) -> None:
    """The one that is named, where a file has several."""
    if named and len(worksheets) > 1:
        others = [one for one in book.remembered if one.what is not Remembered.WORKSHEET]
        book.remembered = [*others, Meaning(Remembered.WORKSHEET, named, BETWEEN_WORKSHEETS.join(worksheets))]


def without(words: list[str], taken_back: list[str]) -> list[str]:
    """The words of an option, each of which may be several, without those that another option names."""
    taken = {word.casefold() for one in taken_back for word in listed(one)}
    left = [",".join(word for word in listed(one) if word.casefold() not in taken) for one in words]
    return [one for one in left if one]


def given_now(import_options: ImportOptions) -> RememberedWords:
    return {
        Remembered.COLUMNS: import_options.columns,
        Remembered.UNKNOWN: import_options.unknown,
        Remembered.KNOWN: import_options.known,
        Remembered.SEXES: import_options.sexes,
        Remembered.MONTH_FIRST: ["yes"] * import_options.month_first,
        Remembered.YOUNGEST: [] if import_options.youngest is None else [str(import_options.youngest)],
        Remembered.APART: [] if import_options.apart is None else [str(import_options.apart)],
        Remembered.TOLD: [quoted(word) for word in parts_of(import_options.no_animal)],
    }


def again(words: RememberedWords, import_options: ImportOptions) -> list[Option]:
    """The options that are used though they weren't given."""
    now = given_now(import_options)
    used = [(kind, word) for kind, those in words.items() for word in those if word not in now[kind]]
    names = {kind: OPTIONS.get(kind, f"--{kind.value}") for kind in words}
    return [Option(names[kind], word * (kind is not Remembered.MONTH_FIRST)) for kind, word in used]


def limits_of(words: RememberedWords) -> Limits:
    """What parents' ages and births of one dam are looked at for."""
    youngest, apart = words[Remembered.YOUNGEST], words[Remembered.APART]
    return Limits(int(youngest[0]) if youngest else YOUNGEST, int(apart[0]) if apart else APART, bool(apart))


def rename_owners(book: Book, import_options: ImportOptions) -> None:
    """Owners are written otherwise from now on, as `--owner 'Meier=Meyer'` says."""
    for word in import_options.owners:
        before, now = owner_pair(word)
        if not book.owners:
            raise Mistake(ImportFault.NO_OWNERS.said(word=word))
        if before not in book.owners:
            raise Mistake(ImportFault.OWNER_LACKS.said(word=word, before=before, owners=names(book)))
        if now in book.owners:
            free_name(book, word, now)
        rename(book, before, now)
        book.renamed.append((before, now))


def owner_pair(word: str) -> tuple[str, str]:
    """How an owner was written, and is now."""
    before, equals, now = (clean(piece) for piece in word.partition("="))
    if not equals or not before or not now:
        raise Mistake(ImportFault.OWNER_OPTION.said(word=word))
    refuse_text(Field.OWNER, now)
    return before, now


def free_name(book: Book, word: str, name: str) -> None:
    """An owner of this name, whom no command of the book names, as after an undo, gives it away."""
    owner_code = book.owners[name]
    if any(str(owner_code) in (step.command.from_owner, step.command.to_owner) for step in book.steps):
        raise Mistake(ImportFault.OWNER_IS_THERE.said(word=word, name=name))
    rename(book, name, f"{name} (herd {owner_code})")


def rename(book: Book, before: str, now: str) -> None:
    book.owners[now] = book.owners.pop(before)
    book.names_of_owner_codes = {}
    others = [one for one in book.remembered if one.what is not Remembered.OWNER]
    names = {owner_code: name for name, owner_code in book.owners.items()}
    book.remembered = others + [Meaning(Remembered.OWNER, *one) for one in renamings(book.owners_came(), names)]


def names(book: Book) -> str:
    return ", ".join(f"'{owner}'" for owner in sorted(book.owners)[:9])
