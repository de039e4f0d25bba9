"""Owners as records: their names, addresses and member numbers, written, merged and erased as changes of their own."""
from __future__ import annotations

from dataclasses import replace
from typing import NamedTuple

from gudokeyi.domain.animals import NO_OWNER
from gudokeyi.domain.changes import Change, ChangeDetails
from gudokeyi.domain.commands import RegisterRecord
from gudokeyi.domain.findings import Entry
from gudokeyi.domain.kinds import ChangeKind, Field
from gudokeyi.domain.members import MOST_IN_MEMBER, Member as Member
from gudokeyi.domain.messages import Mistake
from gudokeyi.domain.mistakes import InvalidValue, OwnerNotFound
from gudokeyi.domain.requests import OwnFault, refuse_text, refuse_unseen
from gudokeyi.engine.answers import records_of
from gudokeyi.ingest.unknown_parents import names_no_owner
from gudokeyi.ingest.texts import clean
from gudokeyi.reconcile.findings.animals import OwnerRenamed, OwnersMerged
from gudokeyi.reconcile.import_options import rename
from gudokeyi.reconcile.rewriting import Life, Rewriting, RewritingRefused, lives_of
from gudokeyi.reconcile.stored_findings import told_of
from gudokeyi.services.book_program import BookProgram
from gudokeyi.services.selection import owner_code_named
from gudokeyi.services.tables import Kind, Table
from gudokeyi.services.verification import check_records
from gudokeyi.services.writing import end, write, write_unended
from gudokeyi.store import members as store
from gudokeyi.store.animal_rows import row_of
from gudokeyi.store.book import Book
from gudokeyi.store.journal import Filed, accepted_commands
from gudokeyi.store.state import MEMBERS, Rows, State, Values, rows_with_id


class MemberLine(NamedTuple):
    """An owner with how many animals there are, and how many of them live."""

    member: Member
    animals: int
    living: int


def member_lines(book: Book) -> list[MemberLine]:
    """The owners by name; one without animals of whom nothing is kept isn't shown."""
    animals, kept = store.animals_by_code(book.connection), store.members_by_code(book.connection)
    found = []
    for name, code in sorted(book.owners.items(), key=lambda one: one[0].casefold()):
        if code != NO_OWNER and (code in animals or code in kept):
            found.append(MemberLine(Member(code, name, *kept.get(code, ())), *animals.get(code, (0, 0))))
    return found


def member_of(book: Book, owner_code: int) -> Member | None:
    """None where there is no such owner."""
    name = {code: name for name, code in book.owners.items()}.get(owner_code)
    kept = store.members_by_code(book.connection).get(owner_code, ())
    return Member(owner_code, name, *kept) if name and owner_code != NO_OWNER else None


def member_named(book: Book, name: str) -> Member:
    """The owner of a name; a mistake where there is none."""
    found = member_of(book, owner_code_named(book, name))
    if found is None:
        raise OwnerNotFound(OwnFault.NO_SUCH_OWNER.said(name=name))
    return found


def member_line(book: Book, name: str) -> MemberLine:
    member = member_named(book, name)
    return MemberLine(member, *store.animals_by_code(book.connection).get(member.owner_code, (0, 0)))


def members_table(book: Book) -> Table:
    columns = [(title, Kind.TEXT) for title in ("owner", "member_number", "address", "mail", "telephone")]
    columns += [("animals", Kind.PLAIN), ("living", Kind.PLAIN)]
    lines = [
        (one.name, one.number, one.address, one.mail, one.telephone, animals, living)
        for one, animals, living in member_lines(book)
    ]
    return Table.of_rows(columns, lines)


# What is kept of an owner.


def write_member(book: Book, program: BookProgram, before: Member, after: Member, form: str = "") -> Change:
    """Writes an owner's record; another name is how the owner is written from now on, in all of the book."""
    after = checked(after)
    if after == before:
        raise Mistake(OwnFault.AS_IT_IS.said())
    told = []
    if after.name != before.name:
        if after.name in book.owners:
            raise InvalidValue(OwnFault.OWNER_TAKEN.said(name=after.name))
        rename(book, before.name, after.name)
        animals = store.animals_by_code(book.connection).get(before.owner_code, (0, 0))[0]
        told.append(told_of(Entry(0, "", OwnerRenamed(before.name, after.name, animals))))
    rows = Rows(store.member_rows(before), store.member_rows(after))
    remembered = book.remembered if told else None
    made = ChangeDetails(ChangeKind.MEMBER, told=tuple(told), form=form)
    state = State(Rows({}, {}), remembered=remembered, keeps_coefficients=True, others=((MEMBERS, rows),))
    return write(book, program, Filed([]), lambda _: state, made)


def checked(member: Member) -> Member:
    """As it can be kept; a mistake where it can't."""
    lines = [clean(line) for line in member.address.splitlines()]
    address = "\n".join(line for line in lines if line)
    texts = (clean(member.number), address, clean(member.mail), clean(member.telephone))
    name = clean(member.name)
    if not name or names_no_owner(name):
        raise InvalidValue(OwnFault.NO_OWNER_NAME.said())
    refuse_text(Field.OWNER, name)
    refuse_unseen(*texts)
    longest = max(map(len, texts))
    if longest > MOST_IN_MEMBER:
        raise InvalidValue(OwnFault.LONG_MEMBER.said(most=MOST_IN_MEMBER, count=longest))
    return Member(member.owner_code, name, *texts)


# Two owners who are one.


def merge(book: Book, program: BookProgram, gone: Member, stays: Member, form: str = "") -> Change:
    """All animals that an owner has or had become those of another one: the register is told so anew. What is kept of
    the one that goes is kept of the other where that has nothing."""
    if gone.owner_code == stays.owner_code:
        raise Mistake(OwnFault.SAME_OWNER.said())
    lives = merged_lives(book, gone.owner_code, stays.owner_code)
    rewriting = Rewriting(book, lives)
    try:
        filed = rewriting.filed(program) if lives else Filed([])
    except RewritingRefused:
        raise Mistake(OwnFault.NOT_MERGED.said()) from None
    both = replace(
        stays, number=stays.number or gone.number, address=stays.address or gone.address, mail=stays.mail or gone.mail,
        telephone=stays.telephone or gone.telephone,
    )  # fmt: skip
    before = {**store.member_rows(gone), **store.member_rows(stays)}
    rows = Rows(before, store.member_rows(both))

    def find_state(after: Book) -> State:
        animals = merged_rows(after, program, lives)
        return State(animals, keeps_coefficients=True, others=((MEMBERS, rows),))

    told = told_of(Entry(0, "", OwnersMerged(gone.name, stays.name, len(lives))))
    made = ChangeDetails(ChangeKind.MERGE, counts=(("animals", len(lives)),), told=(told,), form=form)
    number, moment = write_unended(book, book.connection, program, filed, find_state, made)
    if filed.keeps is not None:
        check_records(Book(book.folder, book.connection), program)
    return end(book, book.connection, number, moment)


def merged_lives(book: Book, gone: int, stays: int) -> dict[str, Life]:
    """What the register is told of each animal that the one had: what one of them gave the other isn't told."""
    code, other = str(gone), str(stays)
    found = {}
    for number, life in lives_of(accepted_commands(book.each_step())).items():
        owners = {life.birth.to_owner, *(one.to_owner for one in life.transfers)}
        if code not in owners:
            continue
        transfers = (
            one._replace(**{
                field: other for field in ("from_owner", "to_owner") if getattr(one, field) == code
            })
            for one in life.transfers
        )
        birth = life.birth._replace(to_owner=other) if life.birth.to_owner == code else life.birth
        kept = tuple(one for one in transfers if one.from_owner != one.to_owner)
        found[number] = life._replace(birth=birth, transfers=kept)
    return found


def merged_rows(after: Book, program: BookProgram, lives: dict[str, Life]) -> Rows:
    """The rows of the animals before and after: a sheet whose cells are as they were doesn't change it back."""
    givers = {number: int(life.transfers[-1].from_owner) if life.transfers else 0 for number, life in lives.items()}
    records = records_of(program.records([*lives], after), givers) if lives else {}
    before: dict[Values, Values] = {}
    now: dict[Values, Values] = {}
    for number in lives:
        known = after.by_number()[number]
        before |= {(row.id,): row for row in rows_with_id(after.connection, known.id)}
        record: RegisterRecord = records[number]
        now[known.id,] = row_of(known._replace(by_hand=known.by_hand | {Field.OWNER}), record)
    return Rows(before, now)


# What was personal goes for good.


def erase(book: Book, program: BookProgram, member: Member, called: str, form: str = "") -> Change:
    """Erases an owner's name and record from all of the book, also from its history, which keeps that they were.
    `called` is what the owner is called from now on."""
    name = f"{called} {member.owner_code}"
    while name in book.owners:
        name += "*"
    made = ChangeDetails(ChangeKind.ERASURE, form=form)
    state = State(Rows({}, {}), keeps_coefficients=True)
    number, moment = write_unended(book, book.connection, program, Filed([]), lambda _: state, made)
    store.erase(book.connection, member.owner_code, name)
    change = end(book, book.connection, number, moment)
    store.leave_nothing(book.connection)
    return change
