"""Clerks, each on a thread of its own, at every number of desks."""
from __future__ import annotations

import reference
from outside.books import HEADER, animal, birth, founder, sire_lines
from outside.runs import Checks, wrote

MOST_DESKS = 16


class TestClerks(Checks):
    def test_clerks(self) -> None:
        for count in 0, 1, 3, 40, 1000:
            self.clerks_of_founders(count)
        self.clerks_of_calves()
        # two lines of sires, dealt in turn to two desks: each desk files a line in its order
        self.clerks_of("two lines", sire_lines(30), 2)
        self.clerks_of("one birth", HEADER + founder(animal("M", 1)) * 16, 16)

    def clerks_of_founders(self, count: int) -> None:
        """Founders are accepted in any order."""
        text = HEADER + "".join(founder(animal("MF"[one % 2], one)) for one in range(count))
        for desks in range(1, MOST_DESKS + 1):
            for base in 0, 1, 2, 10, 1_000_000:
                self.clerks_of(f"{count} founders", text, desks, base)

    def clerks_of_calves(self) -> None:
        """The calves of two founders are accepted in any order once the founders are filed, the last of the base."""
        sire, dam = animal("M", 1), animal("F", 2)
        calves = "".join(birth(animal("F", calf), "2002-01-01", sire, dam) for calf in range(3, 43))
        refused = f"exit,{animal('M', 99)},2002-01-01,,,,\n" * 20_000
        self.clerks_of("calves", HEADER + refused + founder(sire) + founder(dam) + calves, 4, 20_002)

    def clerks_of(self, what: str, text: str, desks: int, base: int | None = None) -> None:
        based = [] if base is None else ["--base", str(base)]
        wanted = wrote(reference.clerks(text, desks, base or 0))
        self.expect(f"clerks of {what}", wanted, ["clerks", "--desks", str(desks), *based], text)
