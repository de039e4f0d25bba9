"""The texts of the pages: each is there in three languages and used, and findings are told in each."""
from __future__ import annotations

import ast
import dataclasses
import datetime
import enum
import importlib
import io
import pathlib
import pickle
import re
import typing
from collections.abc import Iterator, Mapping, Sequence
from typing import Any

import pytest
from babel.messages.catalog import Catalog
from babel.messages.pofile import read_po
from jinja2.ext import babel_extract

from web.said import MESSAGES, place_of
from gudokeyi.domain import messages
from gudokeyi.domain.findings import KINDS
from gudokeyi.domain.kinds import ChangeKind, Field, Role
from gudokeyi.domain.options import IMPORT, LIST, PLAN
from gudokeyi.domain.provenance import BirthBasis, BirthSource, Period, SexSource
from gudokeyi.domain.refusals import Refusal
from gudokeyi.domain.requests import Naming
from gudokeyi.domain.settings import LANGUAGES
from gudokeyi.domain.wording import Counted, Told, names_in
from gudokeyi.ingest.findings.sheets import Cells, CellsUnread, TextCount
from gudokeyi.ingest.messages import Where
from gudokeyi.locale import HERE as CATALOGUES, PO
from gudokeyi.reconcile import kinds_of_findings
from gudokeyi.reconcile.findings.animals import BirthDayInferred, OwnerRenamed, SexInferred
from gudokeyi.reconcile.findings.by_hand import CommandRefused, ValueChanged
from gudokeyi.reconcile.findings.plausibility import ExitsWithdrawn
from gudokeyi.reconcile.messages import ImportFault
from gudokeyi.reconcile.stored_findings import kind_named, kinds_of, modules_of_findings
from gudokeyi.render import (
    certificates, change_messages, csv_files, languages, page_wording, pedigree_pictures, trend_pictures,
)  # fmt: skip
from gudokeyi.render.page_language import PageLanguage, name_of
from gudokeyi.render.pedigree_boxes import COMMON_NOTE
from gudokeyi.render.page_wording import VALUE, MessageView, PageWording, sentence_in, sentence_of
from gudokeyi.render.texts import breed, sentences
from gudokeyi.render.texts.members import NAMES
from gudokeyi.services import lists
from gudokeyi.store.messages import BookFault
from gudokeyi.store.history import WHOLE_STATES
from gudokeyi.web import app, connections, mistakes
from gudokeyi.web.routes import login, restoring, settings, sheet
from gudokeyi.web.views import animals, changes, findings

HERE = CATALOGUES.parent
TEMPLATES = [*HERE.glob("*/templates/*.html")]
# the functions of gettext that the code calls with a text
GETTEXT = ("_", "gettext", "ngettext", "pgettext")


@pytest.mark.parametrize("at", [1, 2])
def test_translated(at: int) -> None:
    """A text has the same places for values in each language, and is another text but for few words."""
    for (_, english), texts in MESSAGES.items():
        assert texts[at] and texts[at].count("{}") <= english.count("{}"), english
    same = [english for (_, english), texts in MESSAGES.items() if texts[at] == english]
    assert len(same) < 40, same


def some_value(kind: Any) -> Any:
    """A value of a type."""
    arguments = typing.get_args(kind)
    if dataclasses.is_dataclass(kind):
        return made(kind)
    if typing.get_origin(kind) is tuple:
        return (some_value(arguments[0]),) if arguments[-1] is ... else tuple(map(some_value, arguments))
    if arguments:
        return some_value(arguments[0])
    if kind is datetime.date:
        return datetime.date(2001, 2, 3)
    if isinstance(kind, type) and issubclass(kind, bool | int) and kind in (bool, int):
        return kind(7)
    return "GK-1" if kind is str else ChangeKind.EXIT if kind is ChangeKind else list(kind)[0]


def made(kind: Any) -> Any:
    return kind(**{name: some_value(one) for name, one in kinds_of(kind).items()})


def concrete_kinds() -> list[str]:
    """The kinds of findings that there are, but for those that others are kinds of."""
    for module in modules_of_findings():
        importlib.import_module(module)
    importlib.import_module("gudokeyi.reconcile.findings.obstacles")
    return [name for name, kind in KINDS.items() if dataclasses.is_dataclass(kind)]


@pytest.mark.parametrize("name", concrete_kinds())
def test_findings(name: str) -> None:
    """Each finding is told with all of its values in German and French."""
    finding = made(kind_named(name))
    for language in LANGUAGES[1:]:
        told, wording = sentence_of(finding, PageLanguage(language)), PageWording(PageLanguage(language))
        assert told.language == "" and not re.search(r"[\[\]{}]", told.text), told
        asked = names_in(wording.template(finding, finding.page_message or finding.message))
        asked |= {name for part in asked & finding.parts.keys() for name in names_in(finding.parts[part].text)}
        assert ("GK-1" in told.text) or not {"id", "parent", "dam", "sire", "text", "title", "worksheet"} & asked
    if finding.page_message:
        assert "--" not in finding.page_message.text and "--" not in sentence_of(finding, PageLanguage("en")).text


# where a message stands, what it is for one, empty where it doesn't count, and what it is
Stands = tuple[str, str, str]


def called() -> Iterator[Stands]:
    """The texts with which the code and the templates of pages call gettext."""
    for path in [path for part in ("web", "render") for path in (HERE / part).rglob("*.py")]:
        for node in ast.walk(ast.parse(path.read_text(encoding="utf-8"))):
            if isinstance(node, ast.Call) and isinstance(node.func, ast.Name | ast.Attribute):
                name = node.func.id if isinstance(node.func, ast.Name) else node.func.attr
                yield from as_it_stands(name, [getattr(given, "value", None) for given in node.args])
    for path in TEMPLATES:
        with open(path, "rb") as file:
            for _, name, said, _ in babel_extract(file, GETTEXT, (), {"encoding": "utf-8"}):
                yield from as_it_stands(name, said if isinstance(said, tuple) else [said])


def as_it_stands(name: str, given: Sequence[object]) -> Iterator[Stands]:
    """None where a call has no text, but what stands for one."""
    texts = [text for text in given[:2] if isinstance(text, str)]
    if name in ("_", "gettext") and given and given[0] in texts:
        yield "", "", texts[0]
    elif name == "ngettext" and len(texts) == 2:
        yield "", texts[0], texts[1]
    elif name == "pgettext" and len(texts) == 2:
        yield texts[0], "", texts[1]


def in_tables() -> Iterator[str]:
    """The texts that stand in tables, or have names, beside the places that say them."""
    described = [*IMPORT.values(), *PLAN.values(), *LIST.values()]
    yield from (text for one in described for text in (one.label, one.hint) if text)
    yield from (*app.MENU.values(), *page_wording.REASONS.values(), *animals.HALF_SIBS.values())
    yield from (*mistakes.REFUSED.values(), *mistakes.REFUSED_BY_STATUS.values(), *mistakes.TOO_LARGE.values())
    yield from (mistakes.OTHER, mistakes.TOO_LONG, mistakes.FAULT, login.LOGIN_OVER, settings.SET_MEANWHILE)
    yield from (connections.NO_ROOM.text, connections.TOO_LARGE.text, connections.MANY_FILES.text)
    yield from (sheet.BOOK_CHANGED, sheet.READ_OTHERWISE, login.WRONG_LOGIN, login.WRONG_PASSWORD, login.MANY)
    yield from (*change_messages.DID.values(), change_messages.EMPTY_AGAIN)
    yield from (*changes.FIELDS.values(), *changes.DAYS.values(), changes.REFUSED)
    yield from (heading for _, _, heading in kinds_of_findings.PLACES.values())
    yield from (*findings.FOLDED.values(), findings.LIMIT, findings.LIMIT_OF_SEVERAL, findings.LEAVE_OUT_LINE)
    yield from (findings.TAKE_LINE, *settings.LABELS.values())
    yield from (
        certificates.NOTE,
        certificates.OF_PROGRAM,
        certificates.SEALED,
        certificates.BREEDER,
        COMMON_NOTE,
        pedigree_pictures.TREE_KEY,
        *certificates.MARK_NOTES.values(),
        *certificates.RELATIONS.values(),
    )
    yield from (*languages.MARKS.values(), *csv_files.TITLES.values(), lists.CASTRATED)


def messages_of_code() -> Iterator[Stands]:
    """All that is said in several languages."""
    yield from called()
    yield from (("", "", text) for text in in_tables())
    pictures = pedigree_pictures.ANCESTORS, pedigree_pictures.HIDDEN, trend_pictures.BY_YEAR, trend_pictures.NO_YEAR
    counted = (*changes.COUNTED.values(), login.WAIT, restoring.MEANWHILE, sheet.CHANGED_BY_OTHERS, *pictures)
    yield from (("", one, several) for one, several in counted)
    # the unknown parents of a certificate
    yield from ((f"unknown {role}", "", "unknown") for role in Role)
    named: list[Mapping[Any, str]] = [*NAMES.values(), breed.NAMES, breed.LACKS, breed.MEANINGS, breed.RULES]
    yield from ((place_of(member), "", text) for those in named for member, text in those.items())
    for kind in messages.Message.__subclasses__():
        yield from ((place_of(one), "", sentences.SENTENCES.get(one, one.value)) for one in kind)
    concrete_kinds()
    importlib.import_module("gudokeyi.services.facts")
    for told in each_below(Told):
        if hasattr(told, "message") and dataclasses.is_dataclass(told):
            message, code = told.page_message or told.message, getattr(told, "code", told.__name__)
            yield code, message.one if message.value else "", message.text


def parts_said(catalogue: Catalog) -> Iterator[Stands]:
    """The parts of messages that a language has places for."""
    for told in each_below(Told):
        if hasattr(told, "message") and dataclasses.is_dataclass(told):
            message, code = told.page_message or told.message, getattr(told, "code", told.__name__)
            found = catalogue.get(message.one, code) or catalogue.get(message.one)
            assert found is not None
            said = found.string if isinstance(found.string, str) else "".join(found.string)
            # what stands for itself needs no words
            for part in (told.parts[name] for name in sorted(names_in(said) & told.parts.keys())):
                yield code, part.one if part.value else "", part.text


def each_below(kind: type[Told]) -> Iterator[type[Told]]:
    for one in kind.__subclasses__():
        yield one
        yield from each_below(one)


@pytest.mark.parametrize("language", LANGUAGES[1:])
def test_catalogues(language: str) -> None:
    """Each message of the code has a translation, which counts where it does and has no other values; and the catalogue
    has no other messages."""
    catalogue = read_po(io.BytesIO((CATALOGUES / language / PO).read_bytes()))
    there = {(one.context, one.id if isinstance(one.id, str) else one.id[0]): one for one in catalogue if one.id}
    seen = set()
    for place, one, text in [*messages_of_code(), *parts_said(catalogue)]:
        key = (place, one or text) if (place, one or text) in there else (None, one or text)
        seen.add(key)
        said = there[key].string
        assert (one, text) == there[key].id if one else isinstance(said, str), key
        for each in [said] if isinstance(said, str) else said:
            assert each and each.count("{}") <= text.count("{}") and "[" not in each, key
    assert there.keys() - seen == set()


def test_counted() -> None:
    """Where one is found it is told otherwise than two, also where English says both alike."""
    cells = Cells(Field.SEX, "Sex", 1, 5, 3, (TextCount("x", 1),), 0)
    told = [
        sentence_of(CellsUnread(dataclasses.replace(cells, count=count)), PageLanguage("de")).text for count in (1, 2)
    ]
    assert [one.partition(" der Spalte")[0] for one in told] == ["1 Zelle", "2 Zellen"]
    counted = [kind for kind in KINDS.values() if dataclasses.is_dataclass(kind) and isinstance(kind.message, Counted)]
    # or a part of it is
    assert len(counted) > 20 and all(
        kind.message.one != kind.message.text or any(part.one for part in kind.parts.values()) for kind in counted
    )


PASSED_OVER = ("{} male that left is passed over.", "{} males that left are passed over.")


def test_one_withdrawn() -> None:
    told = [sentence_of(ExitsWithdrawn(count, ()), PageLanguage("de")).text for count in (1, 2)]
    assert [one.partition(" wieder")[0] for one in told] == ["1 abgegangenes Tier zählt", "2 abgegangene Tiere zählen"]
    assert [PageLanguage("de").ngettext(*PASSED_OVER, count) for count in (1, 2)] == [
        "1 abgegangenes männliches Tier ist ausgelassen.", "2 abgegangene männliche Tiere sind ausgelassen.",
    ]  # fmt: skip


def members() -> list[enum.Enum]:
    """The members of each enum that a finding has a value of, or a sentence of a page names."""
    kinds = [*NAMES]
    seen = {kind for name in concrete_kinds() for kind in enums_of(KINDS[name])}
    assert seen <= {*kinds}, seen - {*kinds}
    return [member for kind in kinds for member in kind]


def enums_of(kind: Any) -> Iterator[type[enum.Enum]]:
    for argument in typing.get_args(kind):
        yield from enums_of(argument)
    if isinstance(kind, type) and issubclass(kind, enum.Enum):
        yield kind
    elif dataclasses.is_dataclass(kind):
        parts: dict[str, Any] = typing.get_type_hints(kind)
        yield from (one for field in dataclasses.fields(kind) for one in enums_of(parts[field.name]))


@pytest.mark.parametrize("language", LANGUAGES)
def test_members(language: str) -> None:
    """Each member of an enum has its words in each language."""
    for member in members():
        if member in (*WHOLE_STATES, ChangeKind.FOLDER, ChangeKind.TAKEN_BACK):
            # no command
            assert member in change_messages.DID
        else:
            assert name_of(member, PageLanguage(language))


@pytest.mark.parametrize("said", [one for kind in messages.Message.__subclasses__() for one in kind], ids=str)
def test_mistakes(said: messages.Message) -> None:
    """Each sentence of a mistake is told in each language, with no other values than it has, and without options of the
    command line."""
    names = set(re.findall(r"\{(\w+)", said.value))
    one = said.said(**{name: 7 if f"{{{name}:," in said.value else f"<{name}>" for name in names})
    for words in map(PageLanguage, LANGUAGES):
        text = words.catalogue.pgettext(place_of(said), sentences.SENTENCES.get(said, said.value))
        assert {name.partition(":")[0] for name in re.findall(r"\{([^}]*)\}", text)} <= names
        told = sentence_in(one, words)
        assert told.text and not told.language and "{" not in told.text and "--" not in told.text


def test_values() -> None:
    """Values of sentences are told in the page's language, also sentences within others; files by their names alone."""
    hint = Naming.MEANT.said(names=messages.AnyOf(["a", "b"]))
    assert (
        sentence_in(Naming.NO_ANIMAL.said(word="c", hint=hint), PageLanguage("de")).text
        == "Das Herdbuch hat kein Tier „c“: ist a oder b gemeint?"
    )
    many = messages.Some([str(at) for at in range(20)], 3)
    assert sentence_in(Naming.SEVERAL.said(count=1234, word="x", ids=many), PageLanguage("fr")).text.endswith(
        ": 0, 1, 2 et 17 autres."
    )
    full = BookFault.FILE_CLOSED.said(
        path=pathlib.Path("/secret/book.sqlite"), error=OSError(28, "No space left on device")
    )
    assert str(full) == "/secret/book.sqlite can't be written (No space left on device): nothing is changed"
    assert [sentence_in(full, PageLanguage(language)).text for language in LANGUAGES] == [
        "book.sqlite can't be written (no room on the disk): nothing is changed",
        "book.sqlite kann nicht geschrieben werden (kein Platz auf dem Datenträger): nichts ist geändert.",
        "book.sqlite ne peut pas être écrit (plus de place sur le disque)\u00a0: rien n'est modifié.",
    ]
    assert pickle.loads(pickle.dumps(full)).sentence is BookFault.FILE_CLOSED
    refused = ImportFault.REFUSED_ON.said(
        where=Where.LINE.said(line=3, id="x"), command="birth", day="2001-02-03", **messages.why(Refusal.LEFT_ALREADY)
    )
    assert refused == "line 3: x: birth on 2001-02-03 is refused: it has left already (refusal 12)"
    told = sentence_in(refused, PageLanguage("de")).text
    assert told == "Zeile 3: x: Geburt am 03.02.2001 ist abgelehnt: es ist schon abgegangen (Ablehnung 12)."


# modules whose mistakes only words of the command line, and programs, can make
OF_WORDS = {
    "domain/commands", "ingest/pedigree_files", "ingest/pedigree_table", "ingest/pedigrees", "packages",
    "reconcile/bare_pedigrees", "reconcile/pedigree_links", "render/trend_pictures", "services/audits",
    "services/pedigree_tables", "services/pedigrees", "services/written_files", "services/exports", "services/output_files", "services/pedigree_imports",
    "services/relationships", "services/restoring", "services/search", "store/backup", "store/legacy/old_folder",
    "services/book", "services/undoing", "web/addresses", "web/server", "locale/__init__",
}  # fmt: skip


def test_no_text_alone() -> None:
    """No mistake that a page may show is a text alone, which it couldn't say in its language."""
    top, found = HERE, set()
    for path in top.rglob("*.py"):
        for call in ast.walk(ast.parse(path.read_text(encoding="utf-8"))):
            if isinstance(call, ast.Call) and isinstance(call.func, ast.Name) and call.func.id == "Mistake":
                if any(isinstance(given, ast.Constant | ast.JoinedStr) for given in call.args):
                    found.add(path.relative_to(top).with_suffix("").as_posix())
    assert {one for one in found if not one.startswith("cli/")} <= OF_WORDS


DAY = datetime.date(2001, 2, 3)


@pytest.mark.parametrize(
    "finding, german, french",
    [
        (ValueChanged("birth day", "2001-02-03", ""), "Geburtstag: 03.02.2001, vorher –", "date de naissance\u00a0: 03/02/2001, avant –"),
        (OwnerRenamed("Meier", "Meyer", 2), "der Besitzer „Meier“ von 2 Tieren wird von jetzt an „Meyer“ geschrieben",
         "le propriétaire «\u00a0Meier\u00a0» de 2 animaux s'écrit désormais «\u00a0Meyer\u00a0»"),
        (SexInferred("F", SexSource.DAM, False), "Geschlecht weiblich, da es Mutter ist", "sexe femelle, car elle est mère"),
        (CommandRefused(ChangeKind.EXIT, "2001-02-03", Refusal.LEFT_ALREADY), "Abgang am 03.02.2001 ist abgelehnt: es ist schon abgegangen",
         "Sortie le 03/02/2001\u00a0: refusé, il est déjà sorti"),
        (CommandRefused(ChangeKind.EXIT, "2001-02-02", Refusal.DAY_TOO_EARLY, DAY),
         "Abgang am 02.02.2001 ist abgelehnt: der Tag liegt vor der Geburt, oder bevor der Besitzer es bekam; der "
         "erste Tag des Besitzers, 03.02.2001, ist erschlossen und weicht dem einer Tabelle",
         "Sortie le 02/02/2001\u00a0: refusé, le jour précède la naissance, ou l'arrivée chez le propriétaire\u00a0; "
         "le premier jour du propriétaire, 03/02/2001, est déduit et cède à celui d'un tableau"),
        (BirthDayInferred(DAY, BirthBasis(BirthSource.PERIOD, Period("2001")), False, 0),
         "Geburtstag 03.02.2001, aus Monat oder Jahr: 2001", "date de naissance 03/02/2001, d'après le mois ou l'année\u00a0: 2001"),
        (BirthDayInferred(DAY, BirthBasis(BirthSource.OFFSPRING), False, 0),
         "Geburtstag 03.02.2001, aus den Nachkommen", "date de naissance 03/02/2001, d'après les descendants"),
    ],
)  # fmt: skip
def test_sentences(finding: Any, german: str, french: str) -> None:
    assert [sentence_of(finding, PageLanguage(language)).text for language in ("de", "fr")] == [german, french]
    assert sentence_of(finding, PageLanguage("en")) == MessageView(finding.words())
