"""Owners that seem to be written otherwise than before, and owners whom the book doesn't have."""
from __future__ import annotations

import collections
import difflib
import itertools
import re
from collections.abc import Collection, Iterator, Mapping, Sequence

from gudokeyi.domain.kinds import Field
from gudokeyi.ingest.animals import LINE_OF, NAME_OF, OWNER_OF, SheetAnimal
from gudokeyi.ingest.doubtful_owners import WORD, is_no_name, is_telephone, tells_of_exit
from gudokeyi.ingest.odd_texts import counts_as_living
from gudokeyi.ingest.statuses import taker_of_owner
from gudokeyi.ingest.texts import plain
from gudokeyi.ingest.exit_words import PLAIN_EXITS, SALE_NOT_MADE
from gudokeyi.ingest.words import BEGINS_BORN_DEAD, KNOWN_BORN_DEAD, has_word
from gudokeyi.reconcile.findings.animals import (
    OwnerMistyped, OwnerOfBookAlike, OwnerRenamed, OwnerRespelt, OwnersAlike, OwnersOtherwise, Spelling,
)  # fmt: skip
from gudokeyi.reconcile.findings.owners import OwnerForSale, OwnerIsNoName, OwnerOfSeveral, OwnerWithMore
from gudokeyi.reconcile.findings.plausibility import BornDead
from gudokeyi.reconcile.next_book import NextBook

# Owners that seem to be written otherwise: than before, where all animals of the one are of another who is much alike,
# and in one sheet, also by a wrong letter.

# how much alike two names are, of which one may stand for the other
ALIKE = 0.75
# an owner of so few animals may be one with so many times as many whose name has a letter more, less or otherwise
FEW, TIMES = 2, 5
# of the animals of an owner who is written otherwise so many have the new name: others may be sold meanwhile
MOSTLY = 0.8
# how umlauts are written where they lack
UMLAUTS = str.maketrans({"ä": "ae", "ö": "oe", "ü": "ue"})
# in shorter names each letter counts
SHORT = 4


def tell_respelt_owners(
    next_book: NextBook, owners_before: set[str], rows: collections.Counter[str] | None = None
) -> None:
    """`owners_before` are those that the book had before this import. A row in whose place one by hand stays tells
    nothing. `rows` are the owners' of the sheet where they are counted already, here and below."""
    taken, kept = collections.defaultdict[str, collections.Counter[str]](collections.Counter), next_book.kept_owners
    book = next_book.book
    rows = owners_of_rows(next_book) if rows is None else rows
    if not book.society_records or rows.keys() <= owners_before:
        return
    numbers, some = next_book.in_book.numbers, next_book.rows_otherwise()
    those = [one for one in some if one.line and one.id in numbers and one.id not in kept]
    # the others have their owners of before
    stay = rows - owners_of_rows(next_book, some)
    counts = collections.Counter((book.records[numbers[one.id]].owner_code, one.owner) for one in those)
    for (owner_code, owner), count in counts.items():
        if before := book.owner_of(owner_code):
            taken[before][owner] += count
    for before, now in taken.items():
        owner, count = now.most_common(1)[0]
        is_new = MOSTLY * now.total() <= count and owner not in owners_before and before not in stay
        if is_new and difflib.SequenceMatcher(None, before.casefold(), owner.casefold()).ratio() >= ALIKE:
            next_book.report.add(0, "", OwnerRespelt(before, owner, count))


def owners_of_rows(
    next_book: NextBook, some: Collection[SheetAnimal] | None = None
) -> collections.Counter[str]:
    """How many rows have each owner, in the order in which they come; of some animals, or of all."""
    animals = next_book.animals.values() if some is None else some
    counts = collections.Counter(itertools.compress(map(OWNER_OF, animals), map(LINE_OF, animals)))
    del counts[""]
    return counts


def first_rows(next_book: NextBook) -> dict[str, SheetAnimal]:
    """The first row of each owner that the book doesn't have: such a row says something else than it."""
    return {one.owner: one for one in reversed(next_book.rows_otherwise()) if one.line}


def tell_renamed_owners(next_book: NextBook) -> None:
    """The owners that are written otherwise from now on, as was wished, each by its first name and its last one."""
    book, found = next_book.book, dict[str, str]()
    for before, _ in book.renamed:
        now = book.respelt(before)
        if before != now and now not in found.values():
            found[before] = now
    for before, now in found.items():
        its = {animal.id: next_book.record(animal.id) for animal in next_book.animals.values() if animal.owner == now}
        those = {id for id, record in its.items() if record and book.owner_of(record.owner_code) == now}
        next_book.report.renamed |= those
        next_book.report.add(0, "", OwnerRenamed(before, now, len(those)))


def tell_owners_alike(next_book: NextBook, rows: collections.Counter[str] | None = None) -> None:
    """Names of the sheet's rows that differ in case, accents, umlauts, blanks or signs alone."""
    animals = owners_of_rows(next_book) if rows is None else rows
    alike = collections.defaultdict[str, list[Spelling]](list)
    for owner, count in sorted(animals.items()):
        for name in plain_names(owner):
            alike[name].append(Spelling(owner, count))
    tell_otherwise(next_book, animals)
    several = dict.fromkeys(tuple(alike[name]) for name in sorted(alike) if name and len(alike[name]) > 1)
    # a spelling stands in two of these at most
    having = collections.defaultdict[Spelling, list[set[Spelling]]](list)
    for told in several:
        spellings = set(told)
        for one in spellings:
            having[one].append(spellings)
    for told in several:
        if not any(set(told) < other for other in having[told[0]]):
            next_book.report.add(0, "", OwnersAlike(told))


def plain_names(owner: str) -> set[str]:
    """What names have in common that differ so alone."""
    return {plain(owner), plain(owner.casefold().translate(UMLAUTS))}


def tell_owners_of_book_alike(next_book: NextBook, owners_before: set[str], rows: collections.Counter[str]) -> None:
    """Owners of the book who have no row, and whose names differ so from one of the `rows`, but for those of whom it is
    told that all their animals are of that one; and those with rows that differ in capitals alone."""
    book, others = next_book.book, owners_before.difference(rows)
    named = {name: owner for owner in rows for name in plain_names(owner)} if others else {}
    alike = {one: named[name] for one in sorted(others) for name in plain_names(one) - {""} if name in named}
    alike |= in_other_capitals([one for one, _ in rows.most_common() if one in owners_before])
    findings = [entry.finding for entry in next_book.report.entries] if alike else []
    told = {one.before for one in findings if isinstance(one, OwnerRespelt)}
    counts = collections.Counter(record.owner_code for record in (book.records.values() if alike else ()))
    for before, now in alike.items():
        if (count := counts[book.owners[before]]) and before not in told:
            next_book.report.add(0, "", OwnerOfBookAlike(before, now, count, now not in owners_before))


def in_other_capitals(owners: Sequence[str]) -> dict[str, str]:
    """By names the first one that differs from them in capitals alone."""
    first: dict[str, str] = {}
    return {owner: one for owner in owners if (one := first.setdefault(owner.casefold(), owner)) != owner}


FAMILY = re.compile(r"\b(?:familie|family|famille|fam)\b\.?", re.IGNORECASE)


# titles of men, of women and of both; `M.` before one name may be an initial
OF_MEN = re.compile(r"\b(?:mr|herr|hr|monsieur)\b\.?|^m\.(?=\s*\S+\s+\S)|\bm\.$", re.IGNORECASE)
OF_WOMEN = re.compile(r"\b(?:mrs|ms|miss|mme|mlle|madame|mademoiselle|frau)\b\.?|\bfr\.", re.IGNORECASE)
TITLE = re.compile(
    rf"{OF_MEN.pattern}|{OF_WOMEN.pattern}|\b(?:dr|prof|(?:dipl\.?[ -]?)?ing)\b\.?|\b(?:dipl|mag|med|vet|univ|lic|dkfm)\.",
    re.IGNORECASE,
)
# words of farms that have a short form too
SHORTENED = {"bros": r"brothers|bros\b\.?", "gebr": r"gebrüder|gebr\b\.?", "ltd": r"limited|ltd\b\.?"}
SHORT_FORMS = [(re.compile(rf"\b(?:{form})", re.IGNORECASE), short) for short, form in SHORTENED.items()]
# what stands between the words of a name
JOINING = re.compile(r"\b(?:and|und|et|du|de|des|the|vom)\b|\bd['’]", re.IGNORECASE)


def tell_otherwise(next_book: NextBook, animals: Mapping[str, int]) -> None:
    """Names whose last name stands first, before a comma, or that have a title, an article, or a word for a family, for
    brothers or for `and` otherwise."""
    found = collections.defaultdict[str, list[Spelling]](list)
    for owner, count in sorted(animals.items()):
        found[name_alone(owner)].append(Spelling(owner, count))
    for key in sorted(found):
        for spellings in of_one_sex(found[key]) if key and len(found[key]) > 1 else ():
            if len({plain(one.text.casefold().translate(UMLAUTS)) for one in spellings}) > 1:
                next_book.report.add(0, "", OwnersOtherwise(tuple(spellings)))


def name_alone(owner: str) -> str:
    """The name as it is compared, the last name last."""
    untitled = TITLE.sub(" ", owner).strip()
    last, comma, first = untitled.partition(",")
    name = FAMILY.sub(" ", f"{first} {last}" if comma else untitled)
    for form, short in SHORT_FORMS:
        name = form.sub(short, name)
    joined = JOINING.sub(" ", name)
    # `De Vries` isn't `Vries`
    return plain((joined if len(joined.split()) > 1 else name).casefold().translate(UMLAUTS))


def of_one_sex(spellings: list[Spelling]) -> list[list[Spelling]]:
    """Names alike, apart where there are some of a man and some of a woman."""
    by_sex = collections.defaultdict[tuple[bool, bool], list[Spelling]](list)
    for one in spellings:
        by_sex[OF_MEN.search(one.text) is not None, OF_WOMEN.search(one.text) is not None].append(one)
    are_both = any(man for man, _ in by_sex) and any(woman for _, woman in by_sex)
    return [*by_sex.values()] if are_both else [spellings]


# Owners of whom one has an initial or a first name more.

# so many initials and first names stand beside a last name; and words that are none
MOST_FIRST_NAMES = 2
A_NAME = re.compile(r"[^\W\d_]+(?:-[^\W\d_]+)*\.?")
NO_FIRST_NAMES = {"hof", "farm", "ferme", "gut", "betrieb", "stall", "zucht"}


def tell_owners_with_more(
    next_book: NextBook, owners_before: set[str], rows: collections.Counter[str] | None = None
) -> None:
    """Names that are the last name of others who have an initial or a first name more. Two of whom the book had both
    before were told when they came."""
    rows = owners_of_rows(next_book) if rows is None else rows
    longer = collections.defaultdict[str, list[str]](list)
    if rows.keys() <= owners_before:
        return
    owners = sorted({*rows, *owners_before})
    for owner in owners:
        for last in last_names(owner):
            longer[last].append(owner)
    findings = [entry.finding for entry in next_book.report.entries]
    told = {(one.before, one.now) for one in findings if isinstance(one, OwnerRespelt)}
    for owner in owners:
        others = [
            one for one in longer.get(last_name(TITLE.sub(" ", owner)), ())
            if not owners_before.issuperset((owner, one)) and (owner, one) not in told and (one, owner) not in told
            and len(of_one_sex([Spelling(owner, 1), Spelling(one, 1)])) == 1
        ]  # fmt: skip
        if others:
            in_book = [one for one in (owner, *others) if one in owners_before and one not in rows]
            new = [one for one in (owner, *others) if one not in owners_before]
            renamed = (in_book[0], new[0]) if len(others) == len(in_book) == len(new) == 1 else ("", "")
            next_book.report.add(0, "", OwnerWithMore(owner, tuple(others[:MOST_WITHIN]), *renamed))


def last_name(text: str) -> str:
    return plain(text.casefold().translate(UMLAUTS))


def last_names(owner: str) -> set[str]:
    """What may be the last name of an owner with initials or first names: it stands first or last."""
    words = TITLE.sub(" ", owner).replace(",", " ").split()
    if not 1 < len(words) <= 1 + MOST_FIRST_NAMES or not all(map(A_NAME.fullmatch, words)) or FAMILY.search(owner):
        return set()
    if not NO_FIRST_NAMES.isdisjoint(map(str.casefold, words)):
        return set()
    likely = words[:1] if "," in owner else (words[0], words[-1])
    return {last_name(word) for word in likely if len(word.rstrip(".")) > 1}


# Owners whose cell has more than a name, and names of animals that never lived.

# what stands beside a name in such a cell, as an address, a telephone number, or a place behind a name of two words
MORE = re.compile(
    r"[/→%†(;&+@]|->|\d{4}|\d\d[ /.-]+\d\d|\S\s+\S+\s*,|"
    r"\b(?:und|and|et|c/o|feu|ex|ehemals|vormals|formerly|anciennement|früher|vorher|bis|ab|seit|until|since|from|"
    r"depuis|jusqu\w*|dès|jetzt|bei|neu|neuer|gekauft|now|by|new|bought|maintenant|chez|par|nouveau|achetée?)\b",
    re.IGNORECASE,
)
MOST_WITHIN = 5


def tell_doubtful_owners(
    next_book: NextBook, owners_before: set[str], rows: collections.Counter[str] | None = None
) -> None:
    """New owners whose name reads like an exit, a day or a telephone number, or has the names of others in it."""
    rows = owners_of_rows(next_book) if rows is None else rows
    words = {owner: tuple(WORD.findall(owner.casefold())) for owner in {*rows, *owners_before}}
    named = collections.defaultdict[tuple[str, ...], list[str]](list)
    for owner in sorted(words):
        # one more than are told: a name isn't told of itself
        if len(named[words[owner]]) <= MOST_WITHIN:
            named[words[owner]].append(owner)
    lengths = {*map(len, named)} - {0}
    found, telephones = dict[str, OwnerIsNoName | OwnerOfSeveral](), telephones_among(rows)
    for owner, count in rows.items():
        if owner in owners_before:
            continue
        within = set[str]()
        if MORE.search(owner) or has_word(owner, PLAIN_EXITS):
            within = {one for part in parts_of(words[owner], lengths) for one in named.get(part, ())} - {owner}
            within = {*itertools.filterfalse(is_no_name, within)}
        if within and not is_no_name(owner):
            found[owner] = OwnerOfSeveral(owner, tuple(sorted(within)[:MOST_WITHIN]), count)
        elif is_no_name(owner) or tells_of_exit(owner) or owner in telephones:
            found[owner] = OwnerIsNoName(owner, count)
    first = first_rows(next_book) if found else {}
    for owner, told in found.items():
        next_book.report.add(first[owner].line, first[owner].id, told)


def tell_owners_for_sale(next_book: NextBook) -> None:
    """Words such as `zu verkaufen` that stand in place of an owner, each text with its first row."""
    cells = [(row.cells.get(Field.OWNER, ""), row) for row in next_book.rows_otherwise() if row.line]
    counts = collections.Counter(text for text, _ in cells)
    first = {text: row for text, row in reversed(cells) if SALE_NOT_MADE.fullmatch(text)}
    for text, row in first.items():
        next_book.report.add(row.line, row.id, OwnerForSale(text, counts[text]))


def telephones_among(owners: Collection[str]) -> set[str]:
    """Those that are written like telephone numbers, unless half of the owners are, as farms by their numbers."""
    found = {*filter(is_telephone, owners)}
    return found if 2 * len(found) < len(owners) else set()


def parts_of(words: tuple[str, ...], lengths: Collection[int]) -> set[tuple[str, ...]]:
    """What stands side by side of some words, in these lengths."""
    return {words[at : at + length] for length in lengths for at in range(len(words) - length + 1)}


def tell_born_dead(next_book: NextBook) -> None:
    """New animals whose name says that they never lived."""
    # all that are new may say something else than the book
    animals = next_book.rows_otherwise()
    together = "\n".join(itertools.compress(map(NAME_OF, animals), map(LINE_OF, animals))).casefold()
    if not any(begin in together for begin in BEGINS_BORN_DEAD):
        return
    named = [one for one in animals if one.line and one.name and counts_as_living(one)]
    likely = {name for name in {one.name for one in named} if has_word(name, KNOWN_BORN_DEAD)}
    for animal in named:
        if animal.name in likely and animal.id not in next_book.book.society_records:
            next_book.report.add(animal.line, animal.id, BornDead(animal.name))


def tell_mistyped_owners(
    next_book: NextBook, owners_before: set[str], rows: collections.Counter[str] | None = None
) -> None:
    """Names of few rows that are those of many but for one letter, or for two that are swapped. One that the book had
    before was told when it came."""
    rows = owners_of_rows(next_book) if rows is None else rows
    many, likely = NamesOfMany(rows), list[tuple[str, str]]()
    for owner, count in rows.items():
        meant = many.meant(owner) if count <= FEW and len(owner) >= SHORT and owner not in owners_before else ""
        if meant:
            likely.append((owner, meant))
    first = first_rows(next_book) if likely else {}
    for owner, meant in likely:
        found = OwnerMistyped(Spelling(owner, rows[owner]), Spelling(meant, rows[meant]))
        next_book.report.add(first[owner].line, first[owner].id, found)


# what two names have in common that differ by one letter: what stands before and behind that in both, or in the longer
# one; or the whole of one that is the other with two letters swapped
Common = tuple[str, ...]


class NamesOfMany:
    """The owners of many rows, by what another name may have in common with theirs. Of each such thing two are kept
    that have most rows and aren't the same but for accents and signs: the first that isn't so of a text is meant, and
    many that are nearly alike are compared with few."""

    def __init__(self, rows: Mapping[str, int]) -> None:
        self.rows, self.order = rows, {owner: at for at, owner in enumerate(rows)}
        self.having = collections.defaultdict[Common, list[str]](list)
        some = [owner for owner, count in rows.items() if count >= TIMES and len(owner) >= SHORT]
        for owner in sorted(some, key=lambda one: -rows[one]):
            text = owner.casefold()
            before_and_behind = [(text[:at], text[at + 1 :]) for at in letters_within(text)]
            for common in {("whole", text), *before_and_behind, *((a + b,) for a, b in before_and_behind)}:
                there = self.having[common]
                if not there or (len(there) == 1 and plain(there[0]) != plain(owner)):
                    there.append(owner)

    def meant(self, owner: str) -> str:
        """That with most rows, and many times as many, from which a name differs by one letter; empty where there is
        none."""
        least = TIMES * self.rows[owner]
        near = [
            (-self.rows[one], letters, self.order[one], one)
            for letters, common in in_common(owner.casefold()) for one in self.having.get(common, ())
            if self.rows[one] >= least and differ_by_one(owner, one)
        ]  # fmt: skip
        return min(near)[-1] if near else ""


def in_common(text: str) -> Iterator[tuple[str, Common]]:
    """What a text may have in common with a name, each with the letters that are the same in both."""
    yield text, (text,)
    for at in letters_within(text):
        before, behind = text[:at], text[at + 1 :]
        yield before + behind, (before, behind)
        yield before + behind, ("whole", before + behind)
    for at in range(len(text) - 1):
        here, there = text[at], text[at + 1]
        yield min(text[:at] + one + text[at + 2 :] for one in (here, there)), (
            "whole", text[:at] + there + here + text[at + 2 :]
        )  # fmt: skip


def letters_within(text: str) -> list[int]:
    """The places of letters that stand in a word with others."""
    return [at for at, one in enumerate(text) if one.isalpha() and is_in_word(text, at, at + 1)]


def differ_by_one(one: str, other: str) -> bool:
    """Are two texts alike but for one letter, or for two that are swapped? Digits, and letters that stand alone, as in
    `Hof 2` and `A. Huber`, tell owners apart."""
    one, other = sorted((one.casefold(), other.casefold()), key=len)
    if len(other) - len(one) > 1 or plain(one) == plain(other):
        return False
    front = next((at for at in range(len(one)) if one[at] != other[at]), len(one))
    back = next((at for at in range(len(one) - front) if one[-1 - at] != other[-1 - at]), len(one) - front)
    here, there = one[front : len(one) - back], other[front : len(other) - back]
    if not (here + there).isalpha() or not is_in_word(other, front, front + len(there)):
        return False
    return len(there) == 1 or (len(here) == 2 and here == there[::-1])


def is_in_word(text: str, begin: int, end: int) -> bool:
    """Has the word at a place other letters beside it?"""
    return text[max(begin - 1, 0) : begin].isalpha() or text[end : end + 1].isalpha()
