"""Files the commands of another program, all as one change: each is answered, and a request that was answered before is
answered again and files nothing."""
from __future__ import annotations

import datetime
import functools
import json
import pathlib
from collections.abc import Iterator, Sequence
from dataclasses import dataclass, field, replace
from typing import Any

from gudokeyi.domain.batches import Accepted, Answer, Faulty, Filed, Litter, Refused, filed_answer
from gudokeyi.domain.changes import Change, ChangeDetails, StoredFinding
from gudokeyi.domain.encoding import json_text
from gudokeyi.domain.findings import Entry
from gudokeyi.domain.kinds import ChangeKind
from gudokeyi.domain.messages import Mistake
from gudokeyi.domain.refusals import Refusal
from gudokeyi.engine.answers import records_of
from gudokeyi.ingest.command_lines import CommandLine, read_command_lines
from gudokeyi.process import stop_again
from gudokeyi.reconcile.by_hand import IdsByLikeness
from gudokeyi.reconcile.findings.by_hand import IdsAlike
from gudokeyi.reconcile.stored_findings import told_of
from gudokeyi.services.batch_commands import animal_of, filed_commands
from gudokeyi.services.batch_fields import Asked, FieldFault, asked_in
from gudokeyi.services.book_session import BookSession
from gudokeyi.services.filing import FiledCommand, NewAnimals, told_by
from gudokeyi.services.filing_session import seen_whole, to_file
from gudokeyi.services.verification import check_records
from gudokeyi.services.writing import end, write_state, written_journal
from gudokeyi.store.animal_rows import row_of
from gudokeyi.store.book import Book
from gudokeyi.store.coefficients import MOST_ONE_BY_ONE, add_coefficient, coefficients_among, write_coefficients
from gudokeyi.store.history import change_numbered, go_on, next_number, now, write_change, write_told
from gudokeyi.store.journal import Filed as FiledSteps, Step
from gudokeyi.store.requests import KeptRequest, keep_requests, kept_request
from gudokeyi.store.state import Rows, State, Values, rows_with_id

# of so few lines ids that are alike are looked for one by one
FEW = 10


def file_lines(folder: pathlib.Path, program: BookSession, text: bytes, each: bool = False) -> Iterator[Answer]:
    """The answers to the lines of a text, in their order, once what was filed is stored: all as one change, or with
    `each` every line as one of its own."""
    lines = list(read_command_lines(text))
    for some in ([line] for line in lines) if each else [lines]:
        stop_again()
        with to_file(folder, program) as book:
            batch = Batch(book, program, ManyNew(book, len(some)))
            answers = batch.answers(some)
        seen_whole(folder, program, batch.last)
        yield from answers


class ManyNew(NewAnimals):
    """Of several newborns: numbers go on from one another, and of many lines the ids of the book are read once."""

    def __init__(self, book: Book, lines: int) -> None:
        self.digits, self.near = 0, IdsByLikeness(book) if lines > FEW else None

    def next_digits(self, book: Book) -> int:
        """Those of one that is refused are given to no other in the same batch."""
        self.digits = max(self.digits, book.greatest_digits()) + 1
        return self.digits

    def alike(self, book: Book, id: str) -> list[IdsAlike]:
        return self.near.alike_to(id) if self.near else super().alike(book, id)


@dataclass
class Batch:
    """A batch that is filed within a transaction. What animals are is written once a later command asks for one of
    them: until then they are `pending`, by their numbers."""

    book: Book
    program: BookSession
    new: NewAnimals
    number: int = 0
    moment: int = 0
    pending: dict[str, FiledCommand] = field(default_factory=dict)
    # the births whose coefficients aren't kept yet, and whether others change too
    born: list[str] = field(default_factory=list)
    others_change: bool = False
    is_rewritten: bool = False
    told: list[StoredFinding] = field(default_factory=list)
    counts: dict[str, int] = field(default_factory=dict)
    asked: dict[str, Asked] = field(default_factory=dict)

    @property
    def last(self) -> int:
        """The book's last change."""
        return self.number or (self.book.change.number if self.book.change else 0)

    def answers(self, lines: Sequence[CommandLine]) -> list[Answer]:
        found = [self.answer(one) for one in lines]
        if not self.number:
            return found
        self.write_pending()
        self.write_journal()
        self.write_coefficients()
        with_coefficients = self.with_coefficients(found)
        filed = {one.request: one for one in with_coefficients if not isinstance(one, Faulty) and one.change}
        new = [one for name, one in filed.items() if name in self.asked]
        requests = (KeptRequest(one.request, self.asked[one.request].text, json_text(one)) for one in new)
        keep_requests(self.book.connection, self.number, requests)
        made = ChangeDetails(ChangeKind.BATCH, counts=tuple(self.counts.items()), told=tuple(self.told))
        write_told(self.book.connection, self.number, made)
        if self.is_rewritten:
            check_records(self.book, self.program)
        change = end(self.book, self.book.connection, self.number, self.moment)
        self.program.stands_at(change)
        return with_coefficients

    def answer(self, line: CommandLine) -> Answer:
        """The answer to a line; coefficients come at the end."""
        try:
            asked = asked_in(line)
            before = self.answered(asked)
            return before or self.filed(asked)
        except FieldFault as fault:
            request = line.values.get("request")
            return Faulty(request if isinstance(request, str) else "", line.line, fault.field, fault.sentence)

    def answered(self, asked: Asked) -> Filed | None:
        """The answer that its request had before; a fault where that asked for something else."""
        here = self.asked.get(asked.request)
        kept = None if here else kept_request(self.book.connection, asked.request)
        if not here and not kept:
            return None
        if (here.text if here else kept.command if kept else "") != asked.text:
            raise FieldFault("request", f"the request {asked.request} was another command: give this one another name")
        return self.done[asked.request] if here else filed_answer(json.loads(kept.answer)) if kept else None

    @functools.cached_property
    def done(self) -> dict[str, Filed]:
        """The answers of this batch, by their requests."""
        return {}

    def filed(self, asked: Asked) -> Filed:
        if asked.kind == "correction":
            answer: Filed = self.corrected(asked)
        elif asked.kind == "note":
            answer = self.noted(asked)
        else:
            some = [self.filed_one(asked, one) for one in list(self.commands(asked))]
            accepted = all(isinstance(one, Accepted) for one in some)
            litter = Litter(asked.request, "accepted" if accepted else "refused", self.number, tuple(some))
            answer = litter if asked.kind == "litter" else some[0]
        self.asked[asked.request] = asked
        self.done[asked.request] = answer
        return answer

    def commands(self, asked: Asked) -> Iterator[FiledCommand]:
        """The commands, of a litter all of them, before any is filed. What they name is written before."""
        self.write_named(asked)
        yield from filed_commands(self.book, asked, self.new)

    def write_named(self, asked: Asked) -> None:
        """Writes what is pending where one of these animals is named."""
        names = {str(one) for one in asked.values.values() if isinstance(one, str)}
        names |= {one.id for one in asked.values.get("offspring", ())}  # type: ignore[attr-defined]
        if any(names & {one.animal.id, number} for number, one in self.pending.items()):
            self.write_pending()

    def filed_one(self, asked: Asked, one: FiledCommand) -> Accepted | Refused:
        """Files a command behind the journal."""
        self.begin()
        refusal = self.program.reply(one.command, self.book)
        self.go_on(FiledSteps([Step(one.command, refusal or 0)]))
        findings = (one.refused(refusal),) if refusal else one.findings
        self.told += (found._replace(line=asked.line) for found in told_by(one, findings))
        if refusal:
            sentence = str(one.refused(refusal).why().words())
            return self.refused(asked, one.animal.id, refusal, sentence)
        if one.kind is ChangeKind.BIRTH:
            self.born.append(one.animal.registration_number)
        self.count("new" if one.kind is ChangeKind.BIRTH else "changed")
        self.others_change |= one.kind is ChangeKind.PARENTS
        self.pending[one.animal.registration_number] = one
        if one.new_owners:
            self.write_pending()
        return Accepted(asked.request, self.number, one.animal.id, one.animal.registration_number, "", "")

    def refused(self, asked: Asked, id: str, refusal: Refusal, sentence: str) -> Refused:
        self.count("refused")
        return Refused(asked.request, self.number or None, id, int(refusal), refusal.name, sentence)

    def corrected(self, asked: Asked) -> Accepted | Refused:
        """Anything of an animal; all of it or nothing."""
        # hardly a batch has one
        from gudokeyi.services.batch_corrections import RefusedCorrection, correction, state_after

        self.write_pending()
        found = correction(self.book, self.program, asked)
        if isinstance(found, RefusedCorrection):
            # nothing of it is kept
            return Refused(asked.request, None, found.id, int(found.refusal), found.refusal.name, found.sentence)
        one, filed = found
        self.begin()
        self.go_on(filed)
        self.is_rewritten |= filed.keeps is not None
        self.write_journal()
        state = state_after(self.book, self.program, one, keeps_coefficients=True)
        write_state(self.book, self.program, self.number, state, again=True)
        self.others_change |= bool(filed.steps) or filed.keeps is not None
        self.told += (told_of(Entry(asked.line, one.known.id, finding)) for finding in one.findings)
        self.count("changed")
        self.book = Book(self.book.folder, self.book.connection)
        return Accepted(asked.request, self.number, one.known.id, one.known.registration_number, "", "")

    def noted(self, asked: Asked) -> Accepted:
        """A note, which the register doesn't have."""
        # hardly a batch has one
        from gudokeyi.services.notes import noted

        self.write_named(asked)
        values: dict[str, Any] = dict(asked.values)
        animal = animal_of(self.book, "id", values["id"])
        try:
            day = values.get("day") or datetime.date.today()
            told, state = noted(self.book, animal, values["text"], day, line=asked.line)
        except Mistake as mistake:
            raise FieldFault("text", mistake.sentences[0]) from None
        self.begin()
        write_state(self.book, self.program, self.number, state, again=True)
        self.told.append(told)
        self.count("changed")
        return Accepted(asked.request, self.number, animal.id, animal.registration_number, "", "")

    def count(self, what: str) -> None:
        self.counts[what] = self.counts.get(what, 0) + 1

    # -- the change in the database

    def begin(self) -> None:
        """The change is begun by the first command that is filed."""
        if self.number:
            return
        connection = self.book.connection
        self.number, self.moment = next_number(connection), now()
        write_change(connection, self.number, self.moment, self.book.journal, ChangeDetails(ChangeKind.BATCH))
        self.book.change = self.change()

    def change(self) -> Change:
        found = change_numbered(self.book.connection, self.number)
        assert found is not None
        return found

    def go_on(self, filed: FiledSteps) -> None:
        """The journal goes on. It is written with the change once animals are."""
        journal = written_journal(self.book.connection, self.book.journal, filed)
        assert self.book.change is not None
        self.book.change = replace(self.book.change, edition=journal.edition, length=journal.length)

    def write_journal(self) -> None:
        go_on(self.book.connection, self.number, self.book.journal)
        self.book = Book(self.book.folder, self.book.connection)

    def write_pending(self) -> None:
        """Writes what became of animals, with the records that the program has of them."""
        if not self.pending:
            return
        self.write_journal()
        before, gave = dict[Values, Values](), dict[str, int]()
        for number, one in self.pending.items():
            rows = rows_with_id(self.book.connection, one.animal.id)
            before |= {(row.id,): row for row in rows}
            said = one.command.from_owner
            gave[number] = int(said) if said else sum(row.from_owner or 0 for row in rows)
        records = records_of(self.program.records([*self.pending], self.book), gave)
        after: dict[Values, Values] = {
            (one.animal.id,): row_of(one.animal, records[number]) for number, one in self.pending.items()
        }
        owners = self.book.owners
        new_owners = {
            name: code for one in self.pending.values() for name, code in one.new_owners.items() if name not in owners
        }
        state = State(Rows(before, after), new_owners=new_owners, keeps_coefficients=True)
        write_state(self.book, self.program, self.number, state, again=True)
        self.pending.clear()
        self.book = Book(self.book.folder, self.book.connection)

    def write_coefficients(self) -> None:
        if not self.born and not self.others_change:
            return
        connection = self.book.connection
        if self.others_change or len(self.born) > MOST_ONE_BY_ONE:
            write_coefficients(connection, self.program.ask(["inbreeding"], self.book))
            return
        for line in self.program.coefficients(self.born, self.book):
            add_coefficient(connection, line)

    def with_coefficients(self, found: list[Answer]) -> list[Answer]:
        """The answers of this batch with the coefficients after it."""
        numbers = [one.registration_number for each in found for one in accepted_in(each)]
        kept = coefficients_among(self.book, numbers)

        def told(one: Accepted | Refused) -> Accepted | Refused:
            if isinstance(one, Refused) or one.percent:
                return one
            its = kept.get(one.registration_number)
            # the register doesn't have each animal that is in the book
            return replace(one, coefficient=its.fraction, percent=its.percent) if its else one

        def whole(one: Answer) -> Answer:
            if isinstance(one, Litter):
                return replace(one, offspring=tuple(map(told, one.offspring)), change=one.change or self.number)
            return one if isinstance(one, Faulty) else told(one)

        return [whole(one) for one in found]


def accepted_in(answer: Answer) -> list[Accepted]:
    some = answer.offspring if isinstance(answer, Litter) else (answer,)
    return [one for one in some if isinstance(one, Accepted)]
