"""What answers of a session must be: those of the reference over the closed journal, in serial order."""
from __future__ import annotations

from collections import defaultdict
from collections.abc import Iterator

import reference
import reference_seal
from outside.session_client import Answer, Client
from outside.session_requests import Request


class JournalChecks:
    """Compares the answers of a session that ended. Each mistake is a line."""

    def __init__(self, client: Client) -> None:
        self.client = client
        self.mistakes: list[str] = [*client.torn]
        self.book = reference.Book()
        # the texts of this state of the book
        self.texts: dict[tuple[str, ...], str] = {}

    def all_mistakes(self) -> list[str]:
        self.each_once()
        self.in_order()
        self.faults()
        journal = self.journal()
        self.replay(journal, self.reports_by_steps(len(journal)))
        wanted = f"closed,{len(journal)},{len(self.book.animals)}\n"
        if self.client.last_line != wanted:
            self.mistakes.append(f"the last line is {self.client.last_line!r}, not {wanted!r}")
        return self.mistakes

    def pairs(self) -> Iterator[tuple[Request, Answer]]:
        for answer in self.client.answers:
            request = self.client.asked.get(answer.tag)
            if request:
                yield request, answer

    def each_once(self) -> None:
        """Each request has one answer, and there is no other."""
        tags = [answer.tag for answer in self.client.answers]
        if sorted(tags) != sorted(self.client.asked):
            self.mistakes.append(f"{len(self.client.asked)} requests have {len(tags)} answers")

    def in_order(self) -> None:
        """Each desk and each inspector answers in the order in which it was asked; a desk's serials ascend."""
        asked: dict[tuple[int | None, int | None], list[str]] = defaultdict(list)
        answered: dict[tuple[int | None, int | None], list[str]] = defaultdict(list)
        last: dict[int | None, int] = {}
        for request in self.client.asked.values():
            asked[request.desk, request.inspector].append(request.tag)
        for request, answer in self.pairs():
            answered[request.desk, request.inspector].append(answer.tag)
            serial = answer.serial()
            if request.desk and serial:
                if serial <= last.get(request.desk, 0):
                    self.mistakes.append(f"{answer.tag}: the serial {serial} isn't after the desk's last")
                last[request.desk] = serial
        for who, tags in asked.items():
            if answered[who] != tags:
                self.mistakes.append(f"{who} answered in another order than it was asked")

    def faults(self) -> None:
        """Each wrong request has its fault, and no other has one, unless it asks about an animal that isn't there."""
        of_animals = (("certificate",), ("coefficient",), ("record",), ("sealed",))
        for request, answer in self.pairs():
            told = answer.lines[0].removeprefix("fault,") if answer.lines[0].startswith("fault,") else None
            absent = told == "NotRegistered" and request.question()[:1] in of_animals
            if told != request.fault and not absent:
                self.mistakes.append(f"{request}: the fault {told}")

    def journal(self) -> list[tuple[Request, Answer]]:
        """The answered commands by their serials, which count from 1 without a gap."""
        answered = [(answer.serial() or 0, request, answer) for request, answer in self.pairs() if request.desk]
        by_serial = sorted((it for it in answered if it[0]), key=lambda it: it[0])
        if [serial for serial, _, _ in by_serial] != list(range(1, len(by_serial) + 1)):
            self.mistakes.append("the serials have a gap, or one stands twice")
        return [(request, answer) for _, request, answer in by_serial]

    def reports_by_steps(self, most: int) -> dict[int, list[tuple[Request, Answer]]]:
        """The reports by the lengths of their histories, which have all that was told and shown before."""
        reports: dict[int, list[tuple[Request, Answer]]] = defaultdict(list)
        shown: dict[int | None, int] = {}
        for request, answer in self.pairs():
            if not request.inspector or request.fault:
                continue
            least = max(self.client.told_before[request.tag], shown.get(request.inspector, 0))
            steps = answer.steps()
            if steps is None:
                # the animal wasn't there: it can't have been before
                reports[least].append((request, answer))
                continue
            if not least <= steps <= most:
                self.mistakes.append(f"{request}: {steps} steps, of at least {least} and at most {most}")
            shown[request.inspector] = steps
            reports[steps].append((request, answer))
        return reports

    def replay(self, journal: list[tuple[Request, Answer]], reports: dict[int, list[tuple[Request, Answer]]]) -> None:
        """Files the journal in the reference, and compares each reply, and each report at its length."""
        for steps in range(len(journal) + 1):
            if steps:
                self.file(steps, *journal[steps - 1])
            for request, answer in reports.get(steps, []):
                self.compare(request, answer)

    def file(self, serial: int, request: Request, answer: Answer) -> None:
        fields = request.command()
        refusal = getattr(self.book, fields["kind"])(fields)
        wanted = f"{serial},refused,{refusal}" if refusal else f"{serial},accepted"
        if answer.lines != [wanted]:
            self.mistakes.append(f"{request}: {answer.lines}, not {wanted}")
        if not refusal:
            self.texts.clear()

    def compare(self, request: Request, answer: Answer) -> None:
        question, steps = request.question(), answer.steps()
        if steps is None:
            if all(number in self.book.animals for number in question[1:]):
                self.mistakes.append(f"{request}: {answer.lines}, though the animals are there")
            return
        if question[0] in ("seal", "sealed"):
            wanted = self.sealed(steps, *question[1:])
        else:
            wanted = self.texts[question] = self.texts.get(question) or self.text(*question)
        if answer.text() != wanted:
            self.mistakes.append(f"{request}: {answer.text()!r}, not {wanted!r}")

    def sealed(self, steps: int, *numbers: str) -> str:
        """The seal of the book after so many steps, or a number's certificate under it."""
        records = reference.records_of(self.book, []).splitlines()
        if not numbers:
            return reference_seal.seal(records, steps)
        if numbers[0] not in self.book.animals:
            return "the animal isn't there\n"
        coefficient = self.line_of(numbers[0]).rstrip("\n").partition(",")[2]
        return reference_seal.sealed(records, steps, numbers[0], coefficient)

    def text(self, word: str, *numbers: str) -> str:
        """The report that answers a question from the book."""
        if word == "seen":
            return ""
        if word == "inbreeding":
            return reference.inbreeding_of(self.book)
        if word == "inverse":
            return reference.inverse_of(self.book)
        if word == "mating":
            return reference.mating_of(self.book, numbers[0], list(numbers[1:]))
        if word == "relationships":
            return reference.relationships_of(self.book, list(numbers))
        if any(number not in self.book.animals for number in numbers):
            return "an animal isn't there\n"
        if word == "certificate":
            return reference.certificates_of(self.book, list(numbers))
        return self.line_of(numbers[0]) if word == "coefficient" else reference.records_of(self.book, list(numbers))

    def line_of(self, number: str) -> str:
        animal = self.book.animals[number]
        value = self.book.relationships()(animal.sire, animal.dam) / 2
        return f"{number},{value},{reference.percentage(value)}\n"
