"""Sessions: what is answered, side by side and in which order."""
from __future__ import annotations

import random
import time

import pytest

import reference
from outside.books import HEADER, animal, drawn
from outside.runs import Checks, wrote
from outside.session_client import Client
from outside.session_journal import JournalChecks
from outside.session_requests import Requests

SIRE, DAM = animal("M", 1), animal("F", 2)
# no thread is promised to run, so what waits for nothing is tried so many times
TRIES = 5


class TestSessions(Checks):
    def test_drawn_requests(self) -> None:
        for seed in 1, 2:
            self.drawn_session(seed, 2_000, 16, 15)
        self.drawn_session(3, 500, 1, 1)
        # more inspectors than desks
        self.drawn_session(4, 500, 2, 5)

    @pytest.mark.slow
    @pytest.mark.parametrize("seed", [11, 12, 13])
    def test_many_drawn_requests(self, seed: int) -> None:
        self.drawn_session(seed, 100_000, 16, 15)

    def drawn_session(self, seed: int, count: int, desks: int, inspectors: int) -> None:
        """Each answer is that of the reference over the closed journal, each report over a beginning that is told."""
        client = Client(self.program, ["--desks", str(desks), "--inspectors", str(inspectors)])
        draw, requests = random.Random(seed), Requests(seed, desks, inspectors)
        while requests.count < count:
            for _ in range(draw.choice([1, 1, 2, 40])):
                client.ask(requests())
            client.flush()
            if draw.random() < 0.2:
                time.sleep(0.001)
        status = client.end()
        mistakes = JournalChecks(client).all_mistakes()
        self.count(status == 0 and not mistakes, f"session {seed}: status {status}: {mistakes[:5]}")
        reports = sum(answer.steps() is not None for answer in client.answers)
        self.count(reports > count // 4, f"session {seed}: {reports} reports alone")

    def test_as_other_words(self) -> None:
        """One desk and its inspectors answer byte for byte as `file` and the other words do."""
        for seed in range(5):
            text = drawn(seed)
            numbers = [animal(sex, one) for one in (1, 7, 40) for sex in "MF"]
            client = Client(self.program, ["--desks", "1", "--inspectors", "8"])
            for place, line in enumerate(text.removeprefix(HEADER).splitlines(), 1):
                client.given.write(f"a{place},desk,1,{line},\n".encode())
            client.flush()
            client.wait_until(lambda: len(client.answers) == place)
            replies = "".join(f"{answer.lines[0]}\n" for answer in client.answers)
            self.count(replies.encode() == self.run(["file"], text).out, f"replies as of file: {seed}")
            there = reference.filed(text)[0].by_age()
            whole = ["inbreeding", "inverse", "records", "seal"]
            # the first question of an inspector is answered from the ancestors of a few named animals alone
            for named in numbers, there[-2:], [*numbers, *there[-9:]]:
                asked = [["relationships", *named], ["mating", *named], ["record", there[-1]], ["sealed", there[-1]]]
                if named != numbers:
                    asked.append(["certificate", *there[-len(named) :]])
                for inspector, words in enumerate([*asked, whole[:1]], 2):
                    self.as_word(client, text, words, inspector)
                # one step more, so that each inspector reads anew
                again, count = text.splitlines()[1], len(client.answers)
                client.given.write(f"again,desk,1,{again},\n".encode())
                client.flush()
                client.wait_until(lambda: len(client.answers) > count)
                text += f"{again}\n"
            for word in whole:
                self.as_word(client, text, [word], 1)
            self.count(client.end() == 0, f"session as other words: {seed}")

    def as_word(self, client: Client, text: str, question: list[str], inspector: int) -> None:
        before = len(client.answers)
        client.given.write(f"seen,inspector,{inspector},{','.join(question)}\n".encode())
        client.flush()
        words = {"record": ["records"], "mating": ["mating", "--dam"]}.get(question[0], [*question[:1]])
        wanted = self.run([*words, *question[1:]], text)
        # the tag was never asked by `ask`, so that each line is an answer
        client.wait_until(lambda: len(client.answers) > before and client.answers[-1].lines[0].startswith("end,"))
        lines = [answer.lines[0] for answer in client.answers[before:]]
        told = "".join(f"{line}\n" for line in lines[:-1]).encode()
        self.count(told == wanted.out, f"as {question}: {told[-160:]!r}, not {wanted.out[-160:]!r}")

    def test_questions_beside_commands(self) -> None:
        """A question waits for no clerk."""
        self.count(any(self.is_asked_beside_commands() for _ in range(TRIES)), "each question waited for the desk")

    def is_asked_beside_commands(self) -> bool:
        asked = [f"{one},desk,1,exit,{SIRE},2000-01-01,,,,,\n" for one in range(1, 20_001)]
        text = "".join(line + f"q{at},inspector,1,seen\n" * (at % 1_000 == 0) for at, line in enumerate(asked, 1))
        out = self.run(["session", "--desks", "1"], text).out.decode().splitlines()
        told = {int(line.split(",")[0][1:]): int(line.split(",")[2]) for line in out if line.startswith("q")}
        self.count(len(told) == 20, f"{len(told)} questions of 20 are answered")
        return any(steps < at for at, steps in told.items())

    def test_commands_beside_lists(self) -> None:
        """A command waits for no list."""
        asked = f"desk,1,exit,{DAM},2001-01-01,,,,,"
        self.count(any(self.is_before_lists(asked) for _ in range(TRIES)), "each command waited for a list before it")

    def test_inspectors_beside_lists(self) -> None:
        """A question waits for no list of another inspector."""
        asked = "inspector,2,seen"
        self.count(any(self.is_before_lists(asked) for _ in range(TRIES)), "each question waited for a list before it")

    def is_before_lists(self, asked: str) -> bool:
        """Is one of five requests answered before the end of the list that inspector 1 was asked for before it?"""
        client = Client(self.program, ["--desks", "1", "--inspectors", "2"])
        for one in range(20_000):
            client.given.write(f"a,desk,1,birth,{animal('MF'[one % 2], one)},2000-01-01,0,0,,1,\n".encode())
        client.flush()
        client.wait_until(lambda: len(client.answers) == 20_000)
        for at in range(5):
            client.given.write(f"q{at},inspector,1,inbreeding\nb{at},{asked}\n".encode())
        client.end()
        told = [answer for answer in client.answers if not answer.lines[-1].startswith("fault")]
        places = {answer.tag: place for place, answer in enumerate(told)}
        return any(places[f"b{at}"] < places[f"q{at}"] for at in range(5))

    def test_limits(self) -> None:
        """The journal and the book have their limits."""
        birth = "desk,1,birth,{},2000-01-01,0,0,,1,\n"
        text = "".join(f"a{one}," + birth.format(animal("M", one)) for one in range(1, 5))
        words = ["session", "--desks", "1", "--limit-animals", "2", "--limit-steps", "3"]
        told = "a1,1,accepted\na2,2,accepted\na3,3,refused,2\na4,fault,JournalFull\nclosed,3,2\n"
        self.expect("limits", wrote(told), words, text)

    def test_tags(self) -> None:
        for tag in "Ab9", "a-1", "-", "x" * 40, "close", "CLOSED", "123e4567-e89b-12d3-a456-426614174000":
            self.expect("tag", wrote(f"{tag},fault,Addressee\nclosed,0,0\n"), ["session"], f"{tag},clerk\n")
        for text in "", "a_1", "x" * 41, "closed", "ä":
            self.expect("no tag", wrote(",fault,Tag\nclosed,0,0\n"), ["session"], f"{text},clerk\n")

    def test_blank_and_quoted(self) -> None:
        text = f'\r\n"a1","desk","1",birth,"{SIRE}",2000-01-01,0,0,,1,\r\n\na2,desk,1,"a ""sale""",,,,,,,\n'
        self.expect("quoted", wrote("a1,1,accepted\na2,fault,Kind\nclosed,1,1\n"), ["session"], text)
