"""The words for a pedigree by itself, without a book: `inbreeding`, `relationships`, `measures` and `audit`; `inverse`
asks here too."""
from __future__ import annotations

import argparse
import importlib.util
import pathlib
import sys
from collections.abc import Iterable
from typing import TYPE_CHECKING

from gudokeyi.cli.arguments import add_force, add_output, file
from gudokeyi.cli.output import JSON_IN_FILE, json_line, refuse_beside_json, tell
from gudokeyi.cli.parser import CommandWords, add_json
from gudokeyi.domain.findings import ImportRefused
from gudokeyi.domain.messages import Mistake, counted
from gudokeyi.domain.mistakes import WrongWords
from gudokeyi.packages import Group, need

if TYPE_CHECKING:
    from gudokeyi.services.pedigrees import Pedigree
    from gudokeyi.services.tables import Table

IDS = "one id a line"
# options of these words that shape a table alone: here --columns says how a file is read
OF_TABLES = ("matrix", "semicolons")


def add_words(words: CommandWords) -> None:
    inbreeding = words.add_without_book(
        "inbreeding", do_inbreeding, "write the coefficient of each animal of a pedigree file, exact and rounded"
    )
    relationships = words.add_without_book(
        "relationships", do_relationships,
        "write relationships and kinships of animals of a pedigree file: of all pairs, an animal with itself too",
    )  # fmt: skip
    measures = words.add_without_book(
        "measures", do_measures, "write the measures of a reference population of a pedigree file"
    )
    audit = words.add_without_book(
        "audit", do_audit, "compare another program's numbers with the exact ones of a pedigree file",
        "The status is 3 where some differ by more than rounding.",
    )  # fmt: skip
    words_by_name = {"inbreeding": inbreeding, "relationships": relationships, "measures": measures, "audit": audit}
    for name, word in words_by_name.items():
        word.add_argument("pedigree", type=pathlib.Path, metavar="PEDIGREE", help=FILE_HELP)
        add_reading(word)
        add_json(word, name)
    add_pairs(relationships)
    for word in relationships, measures:
        word.add_argument("--among", type=pathlib.Path, metavar="FILE", help=f"the animals that a file names, {IDS}")
        add_output(word)
    add_other_numbers(audit)
    inbreeding.add_argument("--out", type=file, metavar="FILE", help="write to this file, not to the screen")
    add_force(inbreeding)


def add_pairs(word: argparse.ArgumentParser) -> None:
    """Of which pairs relationships are asked for, and how they are shown."""
    word.add_argument("ids", nargs="*", metavar="ID", help="the animals")
    word.add_argument(
        "--with", dest="others", type=pathlib.Path, metavar="FILE", help=f"each with each of these, {IDS}"
    )
    word.add_argument(
        "--matrix",
        choices=("kinship", "relationship"),
        help="a matrix of kinships or relationships, not a table of pairs",
    )


def add_other_numbers(word: argparse.ArgumentParser) -> None:
    """The numbers of another program, which are compared."""
    word.add_argument(
        "--against", type=pathlib.Path, required=True, metavar="FILE",
        help="the other program's numbers: `id,F` in each line, or `id,id,value`",
    )  # fmt: skip
    word.add_argument(
        "--what", choices=("inbreeding", "relationship", "kinship", "inverse"),
        help="what they are [inbreeding of one id, relationship of two]",
    )  # fmt: skip


FILE_HELP = "a text file with `id sire dam` in each line, or with these among its titles, also packed as .gz; - is standard input"


def add_reading(word: argparse.ArgumentParser) -> None:
    """How a pedigree is read."""
    word.add_argument(
        "--keep",
        type=pathlib.Path,
        metavar="FILE",
        help=f"cut it first to the animals of a file, {IDS}, and their ancestors",
    )
    word.add_argument(
        "--columns", action="append", default=[], metavar="FIELD=TITLE,..", help="titles for id, sire and dam"
    )
    word.add_argument(
        "--unknown", action="append", default=[], metavar="WORD,..", help="more words for an unknown parent"
    )
    word.add_argument("--known", action="append", default=[], metavar="WORD,..", help="words that are animals")
    word.add_argument(
        "--anyway", action="store_true", help="parents without a line are founders, also where that is doubtful"
    )
    word.add_argument(
        "--leave-out", action="store_true", help="so are those that differ from an id in how they are written alone"
    )


def animals(count: int) -> str:
    return "1 animal" if count == 1 else f"{count:,} animals"


def step(what: str) -> None:
    """Tells how far the work is, at a terminal."""
    if sys.stderr.isatty():
        tell(f"{what} ..")


def pedigree_of(asked: argparse.Namespace) -> Pedigree:
    """The pedigree that a call names; how it was read is told."""
    # to look for versions takes longer than to read a small pedigree
    if not importlib.util.find_spec("numpy"):
        need(Group.PEDIGREES)
    from gudokeyi.services.pedigrees import named_columns, named_in, read_pedigree

    step("reading")
    try:
        pedigree = read_pedigree(
            asked.pedigree, columns=named_columns(asked.columns), unknown=asked.unknown, known=asked.known,
            leave_out=asked.leave_out, anyway=asked.anyway,
        )  # fmt: skip
    except ImportRefused as refused:
        suggestions = dict.fromkeys(one.words() for obstacle in refused.obstacles for one in obstacle.suggestions())
        raise Mistake(*refused.sentences, *suggestions) from None
    for sentence in pedigree.told:
        tell(sentence)
    if asked.keep:
        count = len(pedigree)
        pedigree = pedigree.keep(named_in(asked.keep, pedigree))
        tell(f"kept: {len(pedigree):,} of {animals(count)}, those of {asked.keep} with their ancestors")
    return pedigree


def give(asked: argparse.Namespace, pieces: Iterable[str], what: str) -> None:
    """Writes a text to the screen or to a file, and tells what that has."""
    from gudokeyi.services.written_files import write_beside

    if not asked.out:
        for piece in pieces:
            sys.stdout.write(piece)
        return
    write_beside(asked.pedigree, {asked.out: b"".join(piece.encode() for piece in pieces)}, asked.force)
    print(f"{asked.out}: {what}")


def give_table(asked: argparse.Namespace, table: Table) -> None:
    give(asked, [table.text(asked.semicolons)], counted(len(table), "row"))


def give_json(asked: argparse.Namespace, value: object) -> None:
    """Writes a value as JSON, in a line."""
    give(asked, [json_line(value)], JSON_IN_FILE)


def do_inbreeding(asked: argparse.Namespace) -> None:
    pedigree = pedigree_of(asked)
    step(f"the coefficients of {animals(len(pedigree))}")
    if asked.json:
        from gudokeyi.services.pedigree_answers import inbred

        give_json(asked, inbred(pedigree))
        return
    from gudokeyi.services.pedigree_tables import inbreeding_text

    give(asked, inbreeding_text(pedigree), counted(len(pedigree), "row"))


def do_relationships(asked: argparse.Namespace) -> None:
    if asked.json:
        refuse_beside_json(asked, OF_TABLES)
    pedigree = pedigree_of(asked)
    from gudokeyi.services.pedigree_answers import related
    from gudokeyi.services.pedigree_tables import relationship_matrix, relationship_table
    from gudokeyi.services.pedigrees import named_in

    ids = list(dict.fromkeys(asked.ids + (named_in(asked.among, pedigree) if asked.among else [])))
    if not ids:
        raise WrongWords("relationships needs animals: name one or more, or a file by --among")
    others = named_in(asked.others, pedigree) if asked.others else None
    step(f"the relationships of {animals(len(ids))}")
    pairs = pedigree.pairs(ids, others)
    if asked.json:
        give_json(asked, related(pairs, others is None))
    elif asked.matrix:
        give_table(asked, relationship_matrix(pairs, asked.matrix == "kinship"))
    else:
        give_table(asked, relationship_table(pairs, others is None))


def do_measures(asked: argparse.Namespace) -> None:
    if not asked.among:
        raise WrongWords("measures are those of a reference population: name its animals in a file by --among")
    if asked.json:
        refuse_beside_json(asked, OF_TABLES)
    pedigree = pedigree_of(asked)
    from gudokeyi.services.pedigree_answers import measured
    from gudokeyi.services.pedigree_tables import measure_table
    from gudokeyi.services.pedigrees import named_in

    found = pedigree.measures(named_in(asked.among, pedigree), step)
    if asked.json:
        give_json(asked, measured(found))
    else:
        give_table(asked, measure_table(found))


def do_audit(asked: argparse.Namespace) -> None:
    pedigree = pedigree_of(asked)
    from gudokeyi.render.audits import audit_lines
    from gudokeyi.services.audits import Told, audit
    from gudokeyi.services.pedigree_answers import audited

    step(f"the exact values of {animals(len(pedigree))}")
    found = audit(pedigree, asked.against, Told(asked.what) if asked.what else None)
    told = json_line(audited(found)) if asked.json else "".join(f"{line}\n" for line in audit_lines(found))
    sys.stdout.write(told)
    asked.status = 3 if found.differs else 0


def do_inverse(asked: argparse.Namespace) -> None:
    """The inverse of a pedigree file."""
    if asked.json:
        give_inverse(asked)
        return
    if not asked.out:
        raise WrongWords("inverse writes a file: name it by --out, as inverse.mtx or inverse.npz")
    need(Group.PEDIGREES)
    pedigree = pedigree_of(asked)
    from gudokeyi.services.written_files import write_beside
    from gudokeyi.services.pedigree_tables import matrix_files

    step(f"the inverse of {animals(len(pedigree))}")
    found = pedigree.inverse()
    files = matrix_files(found, asked.out)
    write_beside(asked.pedigree, files, asked.force)
    ids = [*files][-1]
    print(f"{asked.out}: {counted(len(pedigree), 'row')}; {ids} has the ids of the rows")


def give_inverse(asked: argparse.Namespace) -> None:
    """The same as JSON, with exact elements."""
    pedigree = pedigree_of(asked)
    from gudokeyi.services.pedigree_answers import inverse_of

    step(f"the inverse of {animals(len(pedigree))}")
    give_json(asked, inverse_of(pedigree))
