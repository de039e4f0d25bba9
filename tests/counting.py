"""Counts of checks: those that passed and those that failed, of a test and of all."""
from __future__ import annotations

import dataclasses
from typing import Iterable

import pytest

# under which name a report has the counts of its test
NAME = "checks"


@dataclasses.dataclass
class Counts:
    """The checks of a test."""

    passed: int = 0
    # what failed of those that are counted while the test goes on
    failed: list[str] = dataclasses.field(default_factory=list)

    def count(self, right: object, what: str) -> None:
        """Counts a check. One that failed lets the test fail once it is at its end."""
        if right:
            self.passed += 1
        else:
            self.failed.append(what)
            print(f"FAILED {what}")

    def begin(self) -> None:
        """Forgets what held before the test began."""
        self.passed = 0

    def tell(self, report: pytest.TestReport) -> None:
        """Tells in a test's report how many checks passed and failed. A test that is skipped has one that failed."""
        failed = len(self.failed) + (not report.passed)
        if self.failed and report.passed:
            report.outcome, report.longrepr = "failed", f"{len(self.failed)} of {self.passed + failed} checks failed"
        report.user_properties.append((NAME, [self.passed or int(not failed), failed]))


KEY = pytest.StashKey[Counts]()


def counts_of(item: pytest.Item) -> Counts:
    return item.stash.setdefault(KEY, Counts())


def sum_of(reports: Iterable[object]) -> tuple[int, int]:
    """How many checks passed and failed by these reports. What failed before a test, or behind it, is one."""
    passed = failed = 0
    for report in reports:
        if isinstance(report, (pytest.TestReport, pytest.CollectReport)):
            more = counts_in(report)
            passed, failed = passed + more[0], failed + more[1]
    return passed, failed


def counts_in(report: pytest.TestReport | pytest.CollectReport) -> tuple[int, int]:
    told = dict(report.user_properties).get(NAME) if isinstance(report, pytest.TestReport) else None
    # a report that came from another process has a list
    return (told[0], told[1]) if isinstance(told, list) else (0, int(not report.passed))
