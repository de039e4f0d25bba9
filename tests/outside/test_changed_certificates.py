"""Changed certificates are refused, each for a reason that it has."""
from __future__ import annotations

from outside.books import SAMPLES, drawn, full_sibs
from outside.changed_certificates import Changes
from outside.runs import Checks
from outside.session_requests import drawn_commands


class TestChangedCertificates(Checks):
    def test_changed(self) -> None:
        texts = [SAMPLES[1].read_text(), full_sibs(7), *map(drawn, range(3))]
        texts += [drawn_commands(seed, 200) for seed in range(3)]
        for seed, text in enumerate(texts):
            changes = Changes(text, seed)
            for number in list(changes.coefficients)[seed % 5 :: 5]:
                self.refused(changes, number)

    def refused(self, changes: Changes, number: str) -> None:
        """Each change is refused, and for a reason that it has."""
        for how, text, faults in changes(number):
            done = self.run(["check", changes.seal], text.encode("latin-1"))
            told = done.out.decode().split(",")
            right = done.status == 3 and told[0] == "refused" and told[1:2] and told[1] in faults and not done.err
            self.count(right, f"{how}, of {faults}: {done}: {text[-400:]!r}")
