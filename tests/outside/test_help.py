"""Help, whose texts stand in `tests/help/`, with its examples; and the version."""
from __future__ import annotations

import re
import shlex

from outside.books import full_sibs
from outside.orders import order_names
from outside.runs import TOP, Checks, wrote
from outside.test_seals import CERTIFICATE, SEAL
from reference_pedigree import mrode


class TestHelp(Checks):
    def test_help(self) -> None:
        newest = re.search(r"(?m)^## (\S+)", (TOP / "CHANGELOG.md").read_text())
        for words in ["--version"], ["-V"]:
            self.expect("version", wrote(f"herdbook {newest[1] if newest else 'of CHANGELOG.md'}\n"), words)
        orders = order_names()
        lines = self.run(["--help"]).out.decode().splitlines()
        shown = [line.split()[0] for line in lines if line.startswith("  ") and line[2].isalpha()]
        self.count(shown[: len(orders) + 1] == [*orders, "help"], f"--help: {shown}")
        self.help_of("herdbook", [], "file")
        for order in orders:
            self.help_of(order, [order], order)

    def help_of(self, name: str, order: list[str], shown: str) -> None:
        """The help of an order or of the program, and its example, which is one of the order `shown`."""
        asked = self.run([*order, "--help"])
        text = asked.out.decode()
        self.count(asked == wrote((TOP / f"tests/help/{name}.txt").read_text()), f"help: {order}: {asked}")
        is_narrow = all(len(line) <= 80 for line in text.splitlines())
        self.count(is_narrow, f"help: {order}: a line is longer than 80 columns: {text}")
        tells_input = "from standard input" in " ".join(text.split()) and "Usage: " in text
        self.count(tells_input, f"help: {order}: what is read isn't told: {text}")
        self.expect("help", asked, ["help", *order])
        statuses = re.findall(r"(?m)^  (\d)  ", text.partition("Status:")[2])
        is_checked = order in ([], ["check"])
        self.count(statuses == ["0", "1", "2", "3"][: 3 + is_checked], f"help: {order}: the statuses {statuses}")
        example = re.search(r"(?m)^Example:\n  herdbook (.*) < (\w+)\.(?:csv|txt)$", text)
        words = shlex.split(example[1].replace("SEAL", SEAL)) if example else [""]
        self.count(words[0] == shown, f"help: {order}: the example of another: {words}")
        given = {"book": full_sibs(3), "pedigree": mrode().text(), "requests": "a1,inspector,1,seen\n"}
        given["certificate"] = CERTIFICATE
        done = self.run(words, given[example[2] if example else "book"])
        self.count(done.status == 0 and done.out, f"help: {order}: its example: {done}")
