"""What README, `docs/` and CHANGELOG show, how long they are, and the list of statuses."""
from __future__ import annotations

import pathlib
import re

from outside import test_checks, test_growths, test_orders, test_statuses, test_threads, test_writes
from outside.rooms import Rooms
from outside.runs import TOP, wrote

# The lines of the list of statuses: the status, what is told, and the group of checks that brings it about.
STATUSES = [
    ("0", "nothing", test_orders.TestOrders.test_orders),
    ("1", "`herdbook: record NUMBER: fault CAUSE NAME`", test_statuses.TestStatuses.test_line_faults),
    ("1", "`herdbook: not registered`", test_statuses.TestStatuses.test_other_statuses),
    ("1", "`herdbook: no thread`", test_threads.TestThreads.test_refused_threads),
    # no call from outside brings it about
    ("1", "`herdbook: no reader's place`", None),
    ("1", "`herdbook: write fault`", test_writes.TestWrites.test_failing_writes),
    ("1", "`herdbook: no memory`", test_growths.TestGrowths.test_refused_growths),
    ("2", "`herdbook: animal number fault FAULT NAME`", test_statuses.TestStatuses.test_wrong_numbers),
    ("2", "`herdbook: a seal has 64 hexadecimal digits`", test_checks.TestChecks.test_refused),
    ("2", "`herdbook: a word isn't UTF-8 text`", test_statuses.TestStatuses.test_words),
    ("2", "what is wrong with them", test_statuses.TestStatuses.test_words),
    ("3", "nothing", test_checks.TestChecks.test_refused),
]


PAGES = [TOP / "README.md", TOP / "CHANGELOG.md", *sorted((TOP / "docs").glob("*.md"))]
BENCH = TOP / "bench/README.md"

# README is read in half a minute by who looks for what it is, why and how; all pages in an hour
README_WORDS = 600
ALL_WORDS = 12_900
BENCH_WORDS = 1_900


def words_of(page: pathlib.Path) -> int:
    return len(page.read_text().split())


def anchors_of(page: pathlib.Path) -> set[str]:
    """What links to a page's headings may end with."""
    headings = re.findall(r"^#+ (.*)", page.read_text(), re.M)
    return {re.sub(r"[^\w -]", "", heading.lower()).replace(" ", "-") for heading in headings}


def is_there(page: pathlib.Path, link: str) -> bool:
    """Is what a link of a page points to there, with the heading that it names?"""
    file, _, anchor = link.partition("#")
    target = page.parent / file if file else page
    return target.is_file() and (not anchor or anchor in anchors_of(target))


class TestPages(Rooms):
    def test_pages(self) -> None:
        """The examples of each page as they stand there, in a folder of the page's own."""
        counts = [self.page(path) for path in PAGES]
        shown, ran = (sum(count) for count in zip(*counts))
        found = f"{ran} commands and {shown} printed texts were found"
        self.count(shown >= 8 and ran >= shown, f"the pages: {found}")

    def test_words(self) -> None:
        """README is short, and so are all pages together, and the page on benchmarks."""
        counted = {page.name: words_of(page) for page in PAGES}
        readme, of_all, bench = counted["README.md"], sum(counted.values()), words_of(BENCH)
        self.count(readme <= README_WORDS, f"README has {readme} words, {README_WORDS} at most")
        self.count(of_all <= ALL_WORDS, f"all pages have {of_all} words, {ALL_WORDS} at most: {counted}")
        self.count(bench <= BENCH_WORDS, f"bench/README.md has {bench} words, {BENCH_WORDS} at most")

    def test_links(self) -> None:
        """What the pages point to is there."""
        for page in [*PAGES, BENCH]:
            links = [link for link in re.findall(r"\]\(([^)]+)\)", page.read_text()) if "://" not in link]
            lost = [link for link in links if not is_there(page, link)]
            self.count(not lost, f"what {page.name} points to isn't there: {lost}")
        shown = [path.name for path in (TOP / "docs/pictures").iterdir()]
        texts = " ".join(re.findall(r"!\[[^\]]+\]\(([^)]+)\)", "".join(page.read_text() for page in [*PAGES, BENCH])))
        self.count(all(name in texts for name in shown), f"a picture that no page shows with a text: {shown}, {texts}")

    def test_program_to_begin_with(self) -> None:
        """The program that engineers are shown, and its proof file, stand so in the crate that is proved."""
        lines = (TOP / "docs/LIBRARY.md").read_text().splitlines()
        shown = [line[4:] for line in lines if line.startswith("    ") and line[4:].strip()]
        sources = [TOP / "crates/office_example" / name for name in ("src/main.rt", "proofs/main/Invariants.antt")]
        there = {line for source in sources for line in source.read_text().splitlines()}
        begin = shown.index("fn main(rt: HostRuntime) -> Result<()> {")
        end = max(at for at, line in enumerate(shown) if line.startswith("ghosts-keep_office-"))
        lost = [line for line in shown[begin : end + 1] if line not in there]
        self.count(end - begin > 20 and not lost, f"lines that the crate doesn't have: {lost}")

    def test_wrong_bodies(self) -> None:
        """Each wrong body that the page on proofs names is an edit that the prover refuses, or a test."""
        listed = re.findall(r"^- (`[^:\n]*): ", (TOP / "docs/PROOFS.md").read_text(), re.M)
        named = re.findall(r"`(\w+)`", " ".join(listed))
        edits = {path.stem for path in TOP.glob("crates/*/must-fail/*.edit")}
        sources = "".join(path.read_text() for path in TOP.glob("crates/*_tests/src/*.rt"))
        lost = [name for name in named if name not in edits and f"fn {name}(" not in sources]
        self.count(len(named) > 9 and not lost, f"of {len(named)} wrong bodies these aren't there: {lost}")

    def test_list_of_statuses(self) -> None:
        """Each line of the list has a group of checks, and each group's line is there."""
        _, _, below = (TOP / "docs/CLERK.md").read_text().partition("## Statuses\n")
        told = re.findall(r"^- (\d), (`[^`]+`|[^`:]+): .", below, re.M)
        for at, (status, text, group) in enumerate(STATUSES):
            self.count(told[at : at + 1] == [(status, text)], f"no line {at + 1} of {group}: {told[at : at + 1]}")
        self.count(len(told) == len(STATUSES), f"lines without a group: {told[len(STATUSES) :]}")

    def page(self, path: pathlib.Path) -> tuple[int, int]:
        """How many of a page's commands have a text that they print, and how many there are."""
        text = path.read_text()
        blocks = re.findall(r"((?:^    .*\n)+)((?:(?!    ).*\n)*)", text, re.M)
        shown = ran = 0
        for at, (block, between) in enumerate(blocks):
            line = block.strip()
            if not re.match(r"(\./herdbook|\./gudokeyi|python3 examples/)", line):
                continue
            done = self.shell(line, self.example_room(path.stem))
            ran += 1
            self.count(done.status == 0, f"{path.name}: {line}: {done}")
            if "print" in between:
                wanted = re.sub("(?m)^    ", "", blocks[at + 1][0])
                self.count(done == wrote(wanted), f"{path.name}: {line}: {done}; wanted {wanted!r}")
                shown += 1
        return shown, ran
