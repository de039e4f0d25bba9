"""What all tests begin with: the program, and how checks are counted.

Each assertion that holds while a test runs is a check that passed, and so is each that a group counts by itself. A test
that fails or is skipped has at least one check that failed. What pytest writes ends with the sum, before its own line.
"""
from __future__ import annotations

import itertools
import os
import pathlib
import resource
import signal

import pytest
from _pytest.terminal import TerminalReporter

from counting import counts_of, sum_of

pytest.register_assert_rewrite("front_desk.desk")

TOP = pathlib.Path(__file__).resolve().parent.parent
# fixtures that take seconds to make: a browser, and R's look at its package
MADE_ONCE = {"chromium", "checked"}
# so many letters a text has that stands in the name of a test, and so many of one with more
LONGEST, BEGINNING = 200, 40
# what the process of the tests may use, and whatever is begun by it
LIMITS = {one: resource.getrlimit(one) for one in (resource.RLIMIT_AS, resource.RLIMIT_CPU, resource.RLIMIT_FSIZE)}


@pytest.fixture(scope="session")
def program() -> str:
    """The program of the variable HERDBOOK, else the built one."""
    named = os.environ.get("HERDBOOK")
    path = pathlib.Path(named).absolute() if named else TOP / "crates/herdbook/out/herdbook"
    if not path.is_file():
        what_to_do = "say where it is, as export HERDBOOK=/home/me/herdbook" if named else "call ./herdbook --version"
        pytest.fail(f"{path}, the program of the herd book, isn't there: {what_to_do}", pytrace=False)
    return str(path)


@pytest.fixture(scope="session", autouse=True)
def caches(tmp_path_factory: pytest.TempPathFactory) -> None:
    """What calls keep in caches stays with the tests."""
    os.environ["XDG_CACHE_HOME"] = str(tmp_path_factory.mktemp("caches"))


@pytest.fixture(scope="session", autouse=True)
def numbers() -> None:
    """What is asked once of a person at a new book: the variable says it for all the tests' books."""
    os.environ["GUDOKEYI_NUMBERS"] = "HOLGBR"


def pytest_make_parametrize_id(val: object) -> str | None:
    """A long text doesn't stand whole in the name of its test, which goes from process to process with each report."""
    if isinstance(val, str | bytes) and len(val) > LONGEST:
        return f"{ascii(val[:BEGINNING])} and so on"
    return None


def pytest_itemcollected(item: pytest.Item) -> None:
    """Tests with something that is made once go to one process, where there are several."""
    for name in MADE_ONCE.intersection(getattr(item, "fixturenames", ())):
        item.add_marker(pytest.mark.xdist_group(name))


def pytest_collection_modifyitems(items: list[pytest.Item]) -> None:
    """They begin before others, since that process may need longer."""
    items.sort(key=lambda item: item.get_closest_marker("xdist_group") is None)


def pytest_runtest_setup() -> None:
    """What a test starts can be ended by Ctrl-C, also where a shell in the background ignores it for all that it
    begins, or a change that an earlier test made without a process of its own; and it has the memory that the tests
    began with, without which a browser doesn't start, also where an earlier test was a look at a sheet."""
    signal.signal(signal.SIGINT, signal.default_int_handler)
    for one, limits in LIMITS.items():
        resource.setrlimit(one, limits)


def pytest_assertion_pass(item: pytest.Item) -> None:
    counts_of(item).passed += 1


def pytest_runtest_makereport(item: pytest.Item, call: pytest.CallInfo[None]) -> pytest.TestReport:
    report = pytest.TestReport.from_item_and_call(item, call)
    if report.when == "setup":
        counts_of(item).begin()
    if report.when == "call":
        counts_of(item).tell(report)
    return report


def pytest_addoption(parser: pytest.Parser) -> None:
    parser.addoption(
        "--counts", metavar="FILE", help="write how many checks passed and failed into a file, for ./check"
    )


def pytest_terminal_summary(terminalreporter: TerminalReporter, exitstatus: int, config: pytest.Config) -> None:
    passed, failed = sum_of(itertools.chain.from_iterable(terminalreporter.stats.values()))
    # what ended otherwise, as where there is no test
    told = f"{passed} passed, {failed or int(exitstatus != 0)} failed"
    terminalreporter.write_line(f"checks: {told}")
    if config.option.counts:
        pathlib.Path(config.option.counts).write_text(f"{told}\n", encoding="utf-8")
