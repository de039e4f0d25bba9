"""Races of desks of a session, each run until two desks were first. Every end is compared."""
from __future__ import annotations

from collections.abc import Sequence

from outside.books import animal
from outside.runs import Checks
from outside.session_client import Client
from outside.session_journal import JournalChecks
from outside.session_requests import Request

BULL, COW, CALF, OTHER = animal("M", 1), animal("F", 2), animal("M", 3), animal("F", 4)
MOST_DESKS = 16
# the rarer of two orders may come in few of a hundred runs
MOST_RACES = 1_000


def birth(number: str, day: str = "2000-01-01", dam: str = "0") -> tuple[str, ...]:
    return "birth", number, day, "0", dam, "", "1", ""


BEFORE = [birth(BULL), birth(COW), birth(CALF, "2002-01-01")]
CALVING = birth(OTHER, "2003-03-02", COW)

# what two desks file at once, and what is answered to the one that comes second: by desk 2, and by desk 1
DUELS = [
    # the calf gets its sire, and the other parent as unknown, or its dam
    (("parents", CALF, "", BULL, "0", "", "", ""), ("parents", CALF, "", "0", COW, "", "", ""), "accepted", "accepted"),
    # the cow leaves, or has a calf on the day after
    (("exit", COW, "2003-03-01", "", "", "", "", ""), CALVING, "refused,9", "refused,16"),
    # the bull goes to herd 2 or to herd 3
    (
        ("transfer", BULL, "2001-05-01", "", "", "1", "2", ""),
        ("transfer", BULL, "2001-05-01", "", "", "1", "3", ""),
        "refused,13",
        "refused,13",
    ),
    # both file one birth
    (CALVING, CALVING, "refused,1", "refused,1"),
]


def is_in_order(desk: str, filed: dict[str, int]) -> bool:
    """Whether the steps of a desk are the first of its turn, by their serials."""
    tags = sorted((tag for tag in filed if tag.startswith(desk)), key=filed.__getitem__)
    return tags == [f"{desk}-{at}" for at in range(len(tags))]


class TestRaces(Checks):
    def test_two_desks_about_one_animal(self) -> None:
        for one, two, answer_two, answer_one in DUELS:
            winners = set[int]()
            for count in range(MOST_RACES):
                client = self.raced(BEFORE, [[one], [two]], [], count)
                mistakes = JournalChecks(client).all_mistakes()
                told = {answer.tag: answer.lines[0] for answer in client.answers}
                first = 1 if told["d1-0"].startswith("4,") else 2
                wanted = {"d1-0": "4,accepted", "d2-0": f"5,{answer_two}"}
                if first == 2:
                    wanted = {"d2-0": "4,accepted", "d1-0": f"5,{answer_one}"}
                self.count(not mistakes and wanted.items() <= told.items(), f"{one}, {two}: {told}, {mistakes}")
                winners.add(first)
                if len(winners) > 1:
                    break
            self.count(len(winners) > 1, f"{one}, {two}: the first desk was always {winners}")

    def test_all_desks_file_one_birth(self) -> None:
        winners = set[str]()
        for count in range(MOST_RACES):
            client = self.raced([], [[birth(BULL)]] * MOST_DESKS, [], count)
            mistakes = JournalChecks(client).all_mistakes()
            answers = {answer.lines[0]: answer.tag for answer in client.answers if answer.tag != "seen"}
            wanted = {"1,accepted", *(f"{serial},refused,1" for serial in range(2, MOST_DESKS + 1))}
            self.count(not mistakes and answers.keys() == wanted, f"{answers}, {mistakes}")
            winners.add(answers.get("1,accepted", ""))
            if len(winners) > 1:
                break
        self.count(len(winners) > 1, f"the first desk was always {winners}")

    def test_three_steps_are_all_that_fit(self) -> None:
        """Of two desks' births three fit. Each desk's are the first of its turn, in order."""
        turns = [[birth(animal(sex, one)) for one in (1, 2, 3)] for sex in "MF"]
        winners = set[str]()
        for count in range(MOST_RACES):
            client = self.raced([], turns, ["--limit-steps", "3"], count)
            told = {answer.tag: answer.lines[0] for answer in client.answers}
            filed = {tag: int(line.split(",")[0]) for tag, line in told.items() if line.endswith(",accepted")}
            full = [tag for tag, line in told.items() if line == "fault,JournalFull"]
            in_order = all(is_in_order(desk, filed) for desk in ("d1", "d2"))
            right = sorted(filed.values()) == [1, 2, 3] and len(full) == 3 and client.last_line == "closed,3,3\n"
            self.count(right and in_order, f"{told}, {client.last_line}")
            winners.add(min(filed, key=filed.__getitem__, default="")[:2])
            if len(winners) > 1:
                break
        self.count(len(winners) > 1, f"the first desk was always {winners}")

    def raced(
        self,
        before: Sequence[tuple[str, ...]],
        turns: Sequence[Sequence[tuple[str, ...]]],
        limits: list[str],
        count: int,
    ) -> Client:
        """A session that ended, in which each desk filed its turn at once with the others, once desk 1 had filed some
        commands; and all records, as they stand at the end. Desk 1 is asked first, or in every other race the last."""
        client = Client(self.program, ["--desks", str(len(turns)), "--inspectors", "1", *limits])
        for at, fields in enumerate(before):
            client.ask(Request(f"b{at}", ("desk", "1", *fields), desk=1))
        client.flush()
        client.wait_until(lambda: len(client.answers) == len(before))
        desks = list(range(1, len(turns) + 1))
        for at in range(len(turns[0])):
            for desk in desks[:: -1 if count % 2 else 1]:
                client.ask(Request(f"d{desk}-{at}", ("desk", str(desk), *turns[desk - 1][at]), desk=desk))
        client.flush()
        client.wait_until(lambda: len(client.answers) == len(before) + len(turns) * len(turns[0]))
        client.ask(Request("seen", ("inspector", "1", "records"), inspector=1))
        status = client.end()
        self.count(status == 0, f"a race ended with status {status}")
        return client
