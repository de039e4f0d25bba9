"""Parents whose cell has more than an id: one with its name, as `012 / Max`, one animal or another, or words by which
it is none of those that it names."""
from __future__ import annotations

import functools
import re
from collections.abc import Collection, Sequence

from gudokeyi.domain.findings import Finding, Report
from gudokeyi.domain.kinds import Role
from gudokeyi.domain.messages import MOST_NAMED
from gudokeyi.domain.spelling import TIMES
from gudokeyi.ingest.animals import SheetAnimal, links_outside
from gudokeyi.ingest.carriers_in_texts import carried
from gudokeyi.ingest.doubts_in_texts import DOUBT, IN_BRACKETS, asked, without_doubt
from gudokeyi.ingest.marked_ids import CROSSES, MARKED
from gudokeyi.ingest.odd_texts import OF_YEAR
from gudokeyi.ingest.texts import nearly, nearly_all
from gudokeyi.reconcile.findings.parents import FoundWithin
from gudokeyi.reconcile.findings.parents_in_texts import (
    BothParents, CarrierNoDam, EitherParent, NamedByRelation, NamedOtherwiseBeside, NotSaidToBeParent, ParentNotSure,
)  # fmt: skip
from gudokeyi.reconcile.last_found import Kept
from gudokeyi.reconcile.near_names import LEAST_LETTERS
from gudokeyi.reconcile.parents import Names, can_be

# what stands between two animals of which one is the parent, and between an id and a name
EITHER = re.compile(
    r"[\s(]+(?:oder|od\.?|o\.|or|ou|bzw\.?|resp\.?)\s+|\s*/\s*oder\s*|\s+\?\s+", re.IGNORECASE
)  # fmt: skip
ONE_OF = re.compile(r"(?:either|entweder|soit|ou bien)\b", re.IGNORECASE)
# what stands between a sire and a dam
WITH = re.compile(r"\s+[x×]\s+", re.IGNORECASE)
# so many words of a text are looked at
MOST_WORDS = 12
# what says that another animal is named
RELATED = re.compile(
    r"\b(?:(?:litter|half|full)?[ -]*(?:sister|brother)s?|daughter|son|dam|sire|(?:halb|voll)?(?:schwester|bruder)|"
    r"tochter|sohn|dtr|(?:demi-)?(?:s(?:oe|œ)ur|frère)|fille|fils|grand\w*|enkel\w*|porteuse|receveuse|recipient|surrogate|"
    r"leihmutter|empfänger\w*|amme|foster)\b",
    re.IGNORECASE,
)
# the same of whom a name follows, or stands before it
RELATED_TO = re.compile(
    RELATED.pattern + r"\.?(?:\s+(?:von|vom|v|der|des|d|of|to|zu|de|du|à)\s+|\s+[vd]\.\s*|\s+d['’])", re.IGNORECASE
)
RELATED_BEHIND = re.compile(r"['’]?s?['’]?\s+(?:" + RELATED.pattern + ")", re.IGNORECASE)
# what says that an animal isn't the parent, or may not be it; one that isn't registered or tested may be it
DENIED = re.compile(
    r"\b(?:(?:nicht|not|non|pas|kein(?:e[rsnm]?|esfalls)?)\b(?!\W+(?:eingetr|reg|hb\b|im\b|in\b|getest|gentest|test|"
    r"typ|verif|vérif|yet\b|gekört|inscri|enregistr|dans\b|au\b))|(?:nie|never|isn['’]t|falsch\w*|gestrichen|"
    r"streichen|irrtum|irrtümlich|fehler\w*|ausgeschlossen|widerlegt|prüfen|unklar|ungeklärt|fraglich|zweifelhaft|"
    r"wrong\w*|incorrect\w*|error|crossed out|struck (?:out|through)|deleted|excluded|ruled out|disproved|doubtful|"
    r"disputed|to (?:be )?checked|to check|faux|fausse|erreur|erronée?|barrée?|rayée?|exclue?|douteu(?:x|se)|"
    r"à (?:vérifier|contrôler|confirmer))\b)",
    re.IGNORECASE,
)
# what stands before an animal that has the same parent, or in whose place another is the parent
REFERS = re.compile(
    r"\b(?:wie|siehe|(?:an)?statt|same(?: as)?|instead of|comme|voir|idem|au lieu d[eu]|vgl\b\.?|cf\b\.?)(?=\s)|"
    r"(?:^\W*|:\s*|\()(?:s\.|see\b)",
    re.IGNORECASE,
)
BETWEEN = re.compile(r"\s*[/;,()\[\]|]\s*|\s+[-–—]\s+")
# what may stand between the ids of two animals besides, and what stands between an id of now and one of before
JOINED = re.compile(BETWEEN.pattern + r"|\s*[&+]\s*|\s+(?:und|u\.|and|et|ex)\s+", re.IGNORECASE)
FORMERLY = re.compile(
    r"^\W*(?:formerly|former|was|old|ex|früher|ehemals|ehem|vormals|vorher|alt|war|anciennement|anc|ancien)\b",
    re.IGNORECASE,
)
# the number of an animal in its year, and a name beside it; its slash stands between no two animals
NUMBER_OF_YEAR = re.compile(rf"(?<![\w.-])(?<!\d/){OF_YEAR}(?![\w.-]|/\d)")
BEGINS_WITH_NAME, ENDS_WITH_NAME, KEPT = re.compile(r"/[^\W\d_]"), re.compile(r"[^\W\d_]/$"), "\0"
# a sign by which animals leave, before an id or behind it
SIGN_OF_EXIT = re.compile(rf"^[+{CROSSES}]\s*|\s*[{CROSSES}]$")
# signs at the ends of an id that are none of it
AT_ENDS = "?:;\"'"
HAS_MORE = re.compile(rf"[ /;,()\[\]|{AT_ENDS}{CROSSES}]|^\+")
# brackets round a parent are how a list writes it, and tell no doubt, where at least one in so many has them
BRACKETS_USUAL = 3
# what stands between two ids that may have no rows; a short number beside it may be a part of another society's id
BETWEEN_IDS, LEAST_IN_ID = re.compile(r"[/;,|+&]"), 6
# what stands between two names; others are within one, as in `Salz und Pfeffer`
OF_NAMES = re.compile(r"\s*/\s*")
YEAR = re.compile(r"(?:19|20)\d\d")
# so many digits has an id between other words
LEAST_DIGITS = 3
LETTERS, DIGITS = re.compile(r"[^\W\d_]"), re.compile(r"\d")


def without(text: str, names: Sequence[str]) -> str:
    """A text in small letters without some names."""
    rest = text.casefold()
    for name in sorted(filter(None, names), key=len, reverse=True):
        rest = rest.replace(name.casefold(), " ")
    return rest


def shape(id: str) -> str:
    """What ids have in common that are written alike to the letter: `T001` is `A999`."""
    return DIGITS.sub("9", LETTERS.sub("A", id))


def compared(ids: Sequence[str], names: Sequence[str]) -> tuple[dict[str, str], set[str]]:
    """Ids by what is compared of them, and names."""
    return dict(zip(nearly_all(ids), ids)), {*map(name_key, names)} - {""}


def name_key(text: str) -> str:
    """A name in small letters; one of two parents' names may have a sign or a letter between them."""
    return text.casefold().translate(TIMES)


class ParentsInTexts:
    """`lacking` are the rows that name a parent without one, and `of_all` the names of the sheet's animals and the
    book's."""

    def __init__(self, lacking: dict[str, SheetAnimal], of_all: Names) -> None:
        self.lacking, self.of_all = lacking, of_all
        self.animals, self.with_id = of_all.animals, of_all.with_id

    def find(self, report: Report) -> None:
        links = [link for link in links_outside(self.lacking.values(), self.with_id) if HAS_MORE.search(link[2])]
        if not links:
            return
        by = ids, names = self.of_all.given_ids, self.of_all.by_name.names
        self.ids, self.names = self.of_all.last.of(Kept.IDS_IN_TEXTS, by, lambda: compared(ids, names))
        self.brackets_doubt = self.do_brackets_doubt([text for _, _, text in links])
        for offspring, role, text in links:
            if nearly(text) not in self.ids and name_key(text) not in self.names:
                self.find_parent(offspring, role, text, report)

    def find_parent(self, offspring: SheetAnimal, role: Role, written: str, report: Report) -> None:
        text = self.without_carrier(written) if role is Role.DAM else written
        if left_out := self.left_out(role, text) if text else CarrierNoDam(role, written):
            offspring.set_parent(role, "")
            report.add(offspring.line, offspring.id, left_out)
            return
        if text != written:
            # it may be a name, or a dam without a row
            offspring.set_parent(role, text)
        if name := self.name_with_exit(text):
            offspring.set_parent(role, name)
        id = next(iter(self.named(text)), "")
        if id and id != offspring.id and can_be(self.animals[id], role, offspring):
            offspring.set_parent(role, id)
            report.add(offspring.line, offspring.id, FoundWithin(role, written, id))
            if others := self.named_beside(id, text):
                found = NamedOtherwiseBeside(role, written, id, self.animals[id].name, others)
                report.add(offspring.line, offspring.id, found)

    def without_carrier(self, text: str) -> str:
        """A dam's text without those who carried the young one or brought it up, as `E002` of `E002 recip E005`; a word
        that names have too is meant so beside another animal alone."""
        found, ids = carried(text), self.named(text)
        if found is None or not carried(self.without_names(text, ids)):
            return text
        is_sure = not found.may_be_name or ids or any(map(str.isdigit, text))
        return found.dam if is_sure or self.is_name(found.dam) or self.is_name(found.carrier) else text

    def left_out(self, role: Role, text: str) -> Finding | None:
        """Why a text names no parent alone, if it doesn't."""
        found = list(dict.fromkeys(self.named(text)))
        if found and RELATED.search(self.without_names(text, found)) or self.is_relation_by_name(text):
            return NamedByRelation(role, text)
        if self.are_pair(text):
            return BothParents(role, text)
        if denied := self.denied(text, found):
            return NotSaidToBeParent(role, text, denied)
        if len([part for part in EITHER.split(text) if part.strip()]) > 1 or len(found) > 1:
            return EitherParent(role, text)
        if found and (ONE_OF.match(text) or self.has_another_id(text, found[0])) or self.are_names(text):
            return EitherParent(role, text)
        if self.are_ids(text):
            return EitherParent(role, text)
        if doubted := self.doubted(text, found):
            return ParentNotSure(role, text, doubted)
        return None

    # -- words beside an id or a name

    def without_names(self, text: str, ids: Sequence[str]) -> str:
        """A text in small letters without the own names of the animals whose ids stand in it."""
        return without(text, [self.animals[id].name for id in ids])

    def denied(self, text: str, ids: Sequence[str]) -> str:
        """The animal beside which words stand by which it may not be the parent; its own name is none of them."""
        refers = REFERS.search(text)
        if ids:
            rest = self.without_names(text, ids)
            is_other = refers and self.named(text[refers.end() :])
            return ids[0] if is_other or DENIED.search(rest) else ""
        if not refers and not DENIED.search(text):
            return ""
        rest = DENIED.sub(" ", text[refers.end() :] if refers else text).strip(" ()[]!?.,;:-–—")
        return rest if self.is_name(rest) else ""

    def doubted(self, text: str, ids: Sequence[str]) -> str:
        """The animal beside which a word or a sign says that it isn't sure; its own name has none of them."""
        in_brackets = IN_BRACKETS.fullmatch(text) if self.brackets_doubt else None
        if ids:
            rest = self.without_names(text, ids)
            rest = re.sub(rf"(?<!\w){re.escape(ids[0])}(?!\w)", " ", rest, flags=re.IGNORECASE)
            return ids[0] if in_brackets or DOUBT.search(rest) else ""
        if named := asked(text):
            return named
        if not in_brackets and not DOUBT.search(text):
            return ""
        rest = without_doubt(text)
        return rest if self.is_name(rest) or self.is_like_id(rest) else ""

    def do_brackets_doubt(self, texts: Sequence[str]) -> bool:
        """Brackets round a whole parent may also be those of `Max (001)` and `001 (Max)`, of which one part lacks."""
        alone = sum(1 for text in texts if IN_BRACKETS.fullmatch(text))
        if not alone:
            return False
        behind = [found[1] for text in texts if (found := IN_BRACKETS.search(text, 1))]
        if any(nearly(one) in self.ids or name_key(one) in self.names for one in behind):
            return False
        parents = sum(bool(one.sire) + bool(one.dam) for one in self.animals.values())
        return BRACKETS_USUAL * alone < parents

    def is_relation_by_name(self, text: str) -> bool:
        """Does it say how another animal is related that it has by its name?"""
        if not RELATED.search(text):
            return False
        behind, before = RELATED_TO.match(text), RELATED_BEHIND.search(text)
        if behind and self.is_name(text[behind.end() :]):
            return True
        # a name may end with the letter of the genitive
        return before is not None and any(self.is_name(text[: before.start() + more]) for more in range(2))

    def name_with_exit(self, text: str) -> str:
        """The name of an animal beside a sign or a word by which it left, as `Max †` and `Max (verk.)`."""
        found = MARKED.fullmatch(text)
        name = (found["behind"] or found["before"]).strip() if found else ""
        return name if self.is_name(name) else ""

    def is_name(self, text: str) -> bool:
        return sum(map(str.isalpha, text)) >= LEAST_LETTERS and name_key(text) in self.names

    # -- two animals, of which one or none has a row

    def has_another_id(self, text: str, id: str) -> bool:
        """Does it have another text that is written as ids are, and isn't that of before of the same animal?"""
        parts = [part for part in self.split(JOINED, text) if part]
        if nearly(parts[0]) == nearly(id) and len(parts) > 1 and FORMERLY.match(text[len(parts[0]) :]):
            return False
        words = text.split()
        if len(parts) == 1 and len(words) == 2:
            parts = words
        return any(nearly(part) != nearly(id) and self.is_like_id(part) for part in parts)

    def is_like_id(self, text: str) -> bool:
        return DIGITS.search(text) is not None and not YEAR.fullmatch(text) and shape(text) in self.shapes

    @functools.cached_property
    def shapes(self) -> Collection[str]:
        """How the ids are written."""
        return {*map(shape, self.with_id)}

    def are_ids(self, text: str) -> bool:
        """Are there two texts that are written as ids are at both sides of a sign, which may be one of those in ids?"""
        if self.is_like_id(text):
            return False
        parts = ((text[: sign.start()].strip(), text[sign.end() :].strip()) for sign in BETWEEN_IDS.finditer(text))
        return any(min(map(len, both)) >= LEAST_IN_ID and all(map(self.is_like_id, both)) for both in parts)

    def are_names(self, text: str) -> bool:
        """Does it have two names, of which one at least is an animal's?"""
        parts = OF_NAMES.split(text)
        if len(parts) != 2 or any(map(str.isdigit, text)) or min(map(len, parts)) < LEAST_LETTERS:
            return False
        return any(map(self.is_name, parts))

    def named_beside(self, id: str, text: str) -> tuple[str, ...]:
        """Other animals, whose name stands beside an id: the ids of the first of them."""
        parts = [name_key(part) for part in (*BETWEEN.split(text), *text.split(" ", 1)[1:]) if part]
        parts = [part for part in parts if part in self.names and nearly(part) != nearly(id)]
        if not parts or name_key(self.animals[id].name) in parts:
            return ()
        found = [one for one, animal in self.animals.items() if name_key(animal.name) in parts]
        return tuple(found[:MOST_NAMED])

    def are_pair(self, text: str) -> bool:
        """Does it name two animals that are known, as `Max x Rosi`?"""
        parts = WITH.split(text)
        return len(parts) == 2 and all(nearly(one) in self.ids or name_key(one) in self.names for one in parts)

    def named(self, text: str) -> list[str]:
        """The animals whose ids are parts of a text, or stand before or behind some of its words, or else between some:
        there an id has digits, since `n b` names no animal b."""
        words = text.split()[:MOST_WORDS]
        ends = [" ".join(part) for at in range(1, len(words)) for part in (words[:at], words[at:])]
        parts = (*filter(None, self.split(BETWEEN, text)), *filter(DIGITS.search, ends))
        return [*filter(None, map(self.id_of, parts))] or self.named_between(text, words)

    def id_of(self, part: str) -> str:
        bare = SIGN_OF_EXIT.sub("", part), part.strip(AT_ENDS)
        return next(filter(None, map(self.ids.get, map(nearly, (part, *bare)))), "")

    def named_between(self, text: str, words: Sequence[str]) -> list[str]:
        """The animals whose ids stand between other words, as in `Max DE001 born 2015`: those that are also named
        there, or whose ids have letters and no few digits."""
        inner = [words[first:last] for first in range(1, len(words) - 1) for last in range(first + 1, len(words))]
        likely = [part for one in inner if DIGITS.search(part := " ".join(one))]
        found = [id for part in likely if (id := self.id_of(part.strip("()[],")))]
        called = [id for id in found if (name := self.animals[id].name) and name_key(name) in name_key(text)]
        return called or [id for id in found if LETTERS.search(id) and len(DIGITS.findall(id)) >= LEAST_DIGITS]

    # -- numbers of years, as `3/12` and `3/12/Cora`

    def split(self, between: re.Pattern[str], text: str) -> list[str]:
        """The parts of a text, of which the number of an animal in its year is one."""
        kept = NUMBER_OF_YEAR.sub(lambda one: one[0].replace("/", KEPT) if self.is_one(one) else one[0], text)
        return [part.replace(KEPT, "/") for part in between.split(kept)]

    def is_one(self, found: re.Match[str]) -> bool:
        """Is such a number an id, or has it a name beside it, where ids of the sheet have a year?"""
        if nearly(found[0]) in self.ids:
            return True
        before, behind = found.string[: found.start()], found.string[found.end() :]
        return bool(BEGINS_WITH_NAME.match(behind) or ENDS_WITH_NAME.search(before)) and self.have_years

    @functools.cached_property
    def have_years(self) -> bool:
        return any(map(NUMBER_OF_YEAR.match, self.with_id))
