"""What an import tells as pages show it: by kind, what may be wrong first, with what is suggested as choices of a
form."""
from __future__ import annotations

import collections
from collections.abc import Iterable, Iterator, Mapping, Sequence
from dataclasses import dataclass, replace
from typing import NamedTuple

from gudokeyi.domain.changes import Option
from gudokeyi.domain.findings import (
    COLUMNS, DROP_GONE, OPPOSITE, OWN, REPEATED, Entry, Finding, Severity, Suggestion, What, title_kept,
)  # fmt: skip
from gudokeyi.domain.kinds import Field
from gudokeyi.domain.options import IMPORT
from gudokeyi.domain.own_columns import OwnKind
from gudokeyi.render.page_language import PageLanguage, name_of
from gudokeyi.render.page_wording import MessageView, sentence_of
from gudokeyi.services.imports import (
    CASTRATED_MALE, BirthsNearerThanUsual, BirthsTooNear, IdUsedAgain, YoungParent, parts_of, read_given, read_sexes,
)  # fmt: skip
from gudokeyi.services.sheet_previews import KindFound, kind_of
from gudokeyi.web.files import Upload
from gudokeyi.web.forms import BETWEEN

# What findings suggest for the reading of a sheet, as choices of its page.

SEXES, OWNER, NEW_TAG = "--sexes", "--owner", "--new-tag"
# options with a number of days below which something is told
BOUNDS = ("--youngest", "--apart")
# by these a row is left out, or taken
ROWS = ("--no-animal", "--animal")
# options without a word, which a page has as boxes
SET = "1"
MOST_LETTERS = 500
# what a button says that sets a bound, and one that says what a row is
LIMIT = "That can be: warn only below {} days"
LIMIT_OF_SEVERAL = "That can be: warn only below {} days ({} of these {} warnings go)"
LEAVE_OUT_LINE, TAKE_LINE = "Leave out line {}", "It is an animal: take line {}"
# for each bound the numbers of days of all that is told for it
Days = Mapping[str, Sequence[int]]


@dataclass(frozen=True, slots=True)
class Proposed:
    """What a button says that does what is suggested, and the options that it sends."""

    label: str
    options: tuple[Option, ...]


def suggestions_of(findings: Iterable[Finding]) -> tuple[Suggestion, ...]:
    """Each once, but for those that are for the command line alone."""
    return tuple(dict.fromkeys(one for finding in findings for one in finding.suggestions() if is_choice(one)))


def days_of(findings: Iterable[Finding]) -> dict[str, list[int]]:
    """For each bound the days that findings suggest for it."""
    # a large sheet has thousands, and few kinds suggest a bound
    those = [*findings]
    young = [max(one.days, 0) for one in those if isinstance(one, YoungParent)]
    apart = [one.days for one in those if isinstance(one, (BirthsTooNear, BirthsNearerThanUsual))]
    return dict(zip(BOUNDS, (young, apart)))


def proposed(suggestions: Sequence[Suggestion], words: PageLanguage) -> list[Proposed]:
    """For each decision one; what drops animals is another one than what it is suggested with."""
    found = []
    for one in suggestions:
        options = [option for option in one.options if option != DROP_GONE or len(one.options) == 1]
        for those in decisions(options):
            label = "; ".join(label for option in those for label in labels_of(option, words, one.of_exits))
            found.append(Proposed(label, (*those,)))
    return list(dict.fromkeys(found))


def decisions(options: Sequence[Option]) -> Iterator[Sequence[Option]]:
    """The options, but for columns that a sheet may lack: whether it lacks one is decided field by field."""
    titles = read_given([one.word for one in options if one.option == COLUMNS])
    if not titles or any(titles.values()) or len(options) > 1:
        yield options
        return
    for name in titles:
        yield [Option(COLUMNS, f"{name}=")]


def proposed_for(entry: Entry, days: Days, words: PageLanguage) -> list[Proposed]:
    """What an entry suggests: what becomes of its row, of how many entries like it, or else of the whole sheet."""
    found = []
    for one in proposed(suggestions_of([entry.finding]), words):
        option = one.options[0]
        if option.option in BOUNDS:
            limit, all_days = int(option.word), days[option.option]
            gone = sum(day >= limit for day in all_days)
            which = LIMIT_OF_SEVERAL if len(all_days) > 1 else LIMIT
            label = words.gettext(which, words.count(limit), words.count(gone), words.count(len(all_days)))
            found.append(Proposed(label, one.options))
        elif option.option in ROWS:
            what = LEAVE_OUT_LINE if option.option == "--no-animal" else TAKE_LINE
            found.append(Proposed(words.gettext(what, entry.line), one.options))
        elif isinstance(entry.finding, IdUsedAgain):
            found.append(Proposed(words.gettext("They are the same animals: take all such lines"), one.options))
        else:
            found.append(one)
    return found


def is_choice(suggestion: Suggestion) -> bool:
    """Nothing has to be undone for it, as nothing is taken yet."""
    return bool(suggestion.options) and not suggestion.without


def labels_of(option: Option, words: PageLanguage, of_exits: bool = False) -> list[str]:
    """What an option means; of an exit a word for what isn't known says that there is none."""
    if option.option == COLUMNS:
        titles = [(name_of(Field(name), words), title) for name, title in read_given([option.word]).items()]
        return [
            words.gettext("{}: read it from the column '{}'", name, title) if title
            else words.gettext("Read no column for: {}", name) for name, title in titles
        ]  # fmt: skip
    if option.option == SEXES:
        said = [part.partition("=")[0].strip() for part in parts_of([option.word])]
        sexes = zip(said, read_sexes([option.word]).values())
        return [words.gettext("'{}' means: {}", text, sex_meant(sex, words)) for text, sex in sexes]
    if option.option == OWNER:
        before, _, now = option.word.partition("=")
        return [words.gettext("'{}' is written '{}' from now on", before, now)]
    if option.option == NEW_TAG:
        pairs = [part.partition("=")[::2] for part in parts_of([option.word])]
        return [words.gettext("{} has the tag {} from now on", before, now) for before, now in pairs]
    if option.option == OWN:
        kind = name_of(OwnKind(kind_kept(option)), words)
        return [words.gettext("Keep the column '{}' as: {}", title_kept(option), kind)]
    if option.option == "--unknown":
        meant = words.gettext("no exit") if of_exits else words.gettext("unknown parent")
        return [words.gettext("'{}' means: {}", option.word, meant)]
    label = words.gettext(IMPORT[option.option.removeprefix("--")].label)
    return [f"{label}{words.colon} {option.word}" if option.word else label]


def kind_kept(option: Option) -> str:
    """What the column that such an option names is to be kept as."""
    return option.word.rpartition("=")[2]


def sex_meant(sex: str, words: PageLanguage) -> str:
    return words.gettext("castrated male") if sex == CASTRATED_MALE else words.sex(sex)


def field_of(option: Option) -> str:
    """The field of the page's form for an option."""
    return option.option.removeprefix("--").replace("-", "_")


def choose(upload: Upload, options: Iterable[Option]) -> None:
    """Chooses what is suggested for a file, beside what was chosen for it. Who looks at it meanwhile sees the one or
    the other."""
    columns, chosen, others = {**upload.columns}, {**upload.options}, {**upload.others}
    for option in options:
        word = option.word[:MOST_LETTERS]
        if option.option == COLUMNS:
            columns |= read_given([word])
            continue
        if option.option == OWN:
            others[title_kept(option)] = kind_kept(option)
            continue
        field = field_of(option)
        before = chosen.get(field, "")
        between = BETWEEN if option.option == OWNER else ","
        is_added = option.option in REPEATED and before
        if not is_added:
            chosen[field] = word or SET
        elif word not in before.split(between):
            chosen[field] = f"{before}{between}{word}"
        if option.option in OPPOSITE:
            take_back(chosen, field_of(Option(OPPOSITE[option.option])), word)
    upload.columns, upload.options, upload.others = columns, chosen, others


def take_back(chosen: dict[str, str], field: str, word: str) -> None:
    """A word that was chosen for the opposite."""
    left = [one for one in chosen.pop(field, "").split(",") if one and one != word]
    if left:
        chosen[field] = ",".join(left)


# What an import tells as pages show it: by kind, what may be wrong first.

ORDER = (What.WARNING, What.NEW, What.CHANGED, What.LEFT_OUT, What.INFERRED, What.GONE, What.ADDED)
# so many of a kind are shown, the rest where all are asked for
MOST_SHOWN = 200
# more than so many of these are told in one sentence
FEW = 3
FOLDED: dict[type, str] = {
    BirthsTooNear: (
        "{} births came less than {} days after the same dam's one before, from {} to {} days. If that can be in your "
        "herd, nothing need be done."
    ),
    YoungParent: (
        "{} parents were younger than {} days at a birth, from {} to {} days. If that can be in your herd, nothing "
        "need be done."
    ),
}


@dataclass(frozen=True, slots=True)
class Line:
    """Of an animal one sentence, and what may be chosen for it; `line` is the sheet's, 0 where it has no row. Of many
    that are alike one sentence for all stands above those of each."""

    line: int
    id: str
    sentence: MessageView
    choices: list[Proposed]
    each: tuple[Line, ...] = ()
    # the place on the page where the first of its kind stands
    anchor: str = ""


class KindLine(NamedTuple):
    """A kind of what is found: its heading, of how many animals or rows it tells, 0 where nothing says, and the place
    on the page where the first of it stands, empty where none does."""

    heading: str
    animals: int
    anchor: str


class Group(NamedTuple):
    """The entries of a kind, the first of them as lines; `total` is how many lines there are."""

    what: What
    title: str
    total: int
    lines: list[Line]


def groups_of(
    entries: Sequence[Entry], words: PageLanguage, totals: Mapping[What, int] | None = None, days: Days | None = None
) -> list[Group]:
    """The entries by kind; `totals` are how many there are of each, where these are the first alone. With `days` each
    has what may be chosen for it."""
    found = []
    counts = totals or totals_of(entries)
    anchors = set[str]()
    for what in ORDER:
        own = [entry for entry in entries if what in places_of(entry)]
        lines = [*anchored_once(folded(own[:MOST_SHOWN], words, days), anchors)]
        if own:
            more = max(counts[what], len(own)) - len(own[:MOST_SHOWN])
            found.append(Group(what, name_of(what, words), len(lines) + more, lines))
    return found


def anchored_once(lines: Iterable[Line], anchors: set[str]) -> Iterator[Line]:
    """The lines, of which the first of each kind alone has an anchor; `anchors` are those that others have."""
    for line in lines:
        yield replace(line, anchor="") if line.anchor in anchors else line
        anchors.add(line.anchor)


def kinds_of(kinds: Sequence[KindFound], groups: Sequence[Group], words: PageLanguage) -> list[KindLine]:
    """What is found, summed up, where there is so much that this helps."""
    if len(kinds) < FEW:
        return []
    anchors = {line.anchor for group in groups for line in group.lines}
    found = [(kind, anchor_of(kind.place)) for kind in kinds]
    return [KindLine(words.gettext(kind.heading), kind.animals, to if to in anchors else "") for kind, to in found]


def anchor_of(place: int) -> str:
    return f"kind-{place}"


def folded(entries: Sequence[Entry], words: PageLanguage, days: Days | None) -> Iterator[Line]:
    """The entries as lines; many that are told for one limit are one."""
    alike = collections.defaultdict[type, list[Entry]](list)
    for entry in entries:
        alike[type(entry.finding)].append(entry)
    for entry in entries:
        kind = type(entry.finding)
        if kind not in FOLDED or len(alike[kind]) <= FEW:
            yield line_of(entry, words, days)
        elif entry is alike[kind][0]:
            yield line_of_all(alike[kind], words, days)


def line_of_all(entries: Sequence[Entry], words: PageLanguage, days: Days | None) -> Line:
    by_days = {bounded(entry).days: entry for entry in entries}
    least, most = min(by_days), max(by_days)
    finding = bounded(entries[0])
    values = map(words.count, (len(entries), finding.limit, least, most))
    sentence = MessageView(words.gettext(FOLDED[type(finding)], *values))
    choices = line_of(by_days[least], words, days).choices
    each = tuple(line_of(entry, words, days) for entry in entries)
    return Line(0, "", sentence, choices, each, each[0].anchor)


def bounded(entry: Entry) -> BirthsTooNear | YoungParent:
    assert isinstance(entry.finding, BirthsTooNear | YoungParent)
    return entry.finding


def line_of(entry: Entry, words: PageLanguage, days: Days | None) -> Line:
    choices = [] if days is None else proposed_for(entry, days, words)
    _, place, _ = kind_of(entry.finding)
    return Line(entry.line, entry.id, sentence_of(entry.finding, words), choices, anchor=anchor_of(place))


def places_of(entry: Entry) -> tuple[What, ...]:
    """The kinds under which it stands: what may be wrong stands there, also where it is of another kind."""
    what = entry.what
    if what is What.WARNING or what is What.LEFT_OUT or entry.finding.does() is Severity.NONE:
        return (what,)
    return What.WARNING, what


def totals_of(entries: Iterable[Entry]) -> collections.Counter[What]:
    return collections.Counter(what for entry in entries for what in places_of(entry))


def first_of_each(entries: Iterable[Entry]) -> Iterator[Entry]:
    """The first entries of each kind, as many as are shown."""
    counts = collections.Counter[What]()
    for entry in entries:
        is_first = False
        for what in places_of(entry):
            counts[what] += 1
            is_first |= counts[what] <= MOST_SHOWN
        if is_first:
            yield entry
