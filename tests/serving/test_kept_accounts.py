"""The accounts and the guesses as they are kept, without a desk."""
from __future__ import annotations

import contextlib
import io
import os
import pathlib
import sqlite3

import pytest

from gudokeyi.domain.messages import Mistake
from gudokeyi.domain.people import AccountRole, Person
from gudokeyi.process import FAULT
from gudokeyi.store import accounts as passwords, accounts_file
from gudokeyi.store.accounts import A_DAY, Accounts
from gudokeyi.web.logins import FREE_BY_ADDRESS, FREE_BY_NAME, MOST, SECONDS, AccessLog, Throttle
from serving.visitor import WORD, Clock

KEEPER, CLERK = AccountRole.KEEPER, AccountRole.CLERK


@pytest.fixture
def accounts(cheap: None, tmp_path: pathlib.Path) -> Accounts:
    """Those of a keeper and a clerk."""
    found = Accounts(tmp_path, Clock())
    found.add("Kim", KEEPER, WORD, WORD)
    found.add("Carl", CLERK, WORD, WORD)
    return found


def logins(accounts: Accounts) -> int:
    with contextlib.closing(sqlite3.connect(accounts.path)) as connection:
        return int(connection.execute("SELECT count(*) FROM login").fetchone()[0])


def test_names(accounts: Accounts) -> None:
    """A name is the same in capitals and as wide letters, and there is one of it; one that misleads isn't taken."""
    wide = "\uff2b\uff49\uff4d"
    assert accounts.fits("KIM ", WORD) and accounts.fits(wide, WORD) and not accounts.fits("Kin", WORD)
    for name in "kim", " KIM", wide:
        with pytest.raises(Mistake, match="there is an account"):
            accounts.add(name, CLERK, WORD, WORD)
    for name in "", "  ", "\u202eeve", "e\0ve", "-eve", "x" * 41:
        with pytest.raises(Mistake, match="can't be an account's name"):
            accounts.add(name, CLERK, WORD, WORD)
    assert [one.name for one in accounts.all()] == ["Carl", "Kim"]


def test_roles() -> None:
    """Each role may what the ones before it may, and no more."""
    roles = [AccountRole.INSPECTOR, CLERK, KEEPER]
    allowed = [[one.may(least) for least in roles] for one in roles]
    assert allowed == [[True, False, False], [True, True, False], [True, True, True]]


def test_keys(accounts: Accounts, tmp_path: pathlib.Path) -> None:
    """Each file signs with a key of its own, and each login has a token that nobody guesses."""
    (tmp_path / "other").mkdir()
    other = Accounts(tmp_path / "other")
    other.add("Kim", KEEPER, WORD, WORD)
    assert len(accounts.key()) == 32 and accounts.key() != other.key()
    carl = accounts.fits("Carl", WORD)
    assert carl
    tokens = {accounts.begin_login(carl) for _ in range(20)}
    assert len(tokens) == 20 and min(map(len, tokens)) >= 43
    assert not other.person_of(tokens.pop())


def test_logins_end(accounts: Accounts) -> None:
    """Logins whose day is over aren't kept, and a change that isn't allowed ends none."""
    clock, kim = accounts.clock, accounts.fits("Kim", WORD)
    assert isinstance(clock, Clock) and kim
    token = accounts.begin_login(kim)
    with pytest.raises(Mistake, match="somebody has to be a keeper"):
        accounts.remove("kim")
    with pytest.raises(Mistake, match="somebody has to be a keeper"):
        accounts.change_role("kim", CLERK)
    assert accounts.person_of(token) and logins(accounts) == 1
    clock.now += A_DAY
    assert not accounts.person_of(token)
    accounts.begin_login(kim)
    assert logins(accounts) == 1


def test_other_file(tmp_path: pathlib.Path) -> None:
    """Another database in the accounts' place lets nobody in."""
    path = tmp_path / "accounts.sqlite"
    path.touch(mode=0o600)
    with contextlib.closing(sqlite3.connect(path)) as connection:
        connection.execute("CREATE TABLE account (name, role, folded)")
    with pytest.raises(Mistake, match="isn't a file of accounts"):
        Accounts(tmp_path)


def test_long_password(cheap: None) -> None:
    """Nothing of a password is cut off."""
    longest = WORD.ljust(passwords.MOST_PASSWORD_LETTERS, "x")
    kept = passwords.kept_of(longest)
    assert passwords.fits(longest, kept) and not passwords.fits(f"{longest}x", kept)
    assert not passwords.fits(longest[:-1], kept)


@pytest.mark.parametrize("password, is_taken", [
    ("abcdefghi", False), ("abcdefghij", True), ("abcde" * 40, True), ("abcde" * 40 + "f", False),
    ("abcdabcdabcd", False), ("abcdeabcdea", True), ("abcd of KIM.", False), ("abcde of KIM.", True),
])  # fmt: skip
def test_new_passwords(password: str, is_taken: bool) -> None:
    """It has 10 to 200 letters, five of them different, and as many without a name that is in it."""
    if is_taken:
        assert passwords.checked(password, password, "Kim") == password
    else:
        with pytest.raises(Mistake):
            passwords.checked(password, password, "Kim")


def guess(throttle: Throttle, name: str, address: str, is_right: bool = False) -> int:
    """So many seconds to wait; 0 where a password was tried."""
    return throttle.wait_of(name, address) or throttle.tried(name, address, is_right)


def test_throttle_right() -> None:
    """Who guessed right may guess anew by that name; whoever knows one password of an address gives its guesses of
    others no new beginning."""
    throttle = Throttle(lambda: 0.0)
    for _ in range(2):
        assert [guess(throttle, "Carl", "2.2.2.2") for _ in range(FREE_BY_NAME - 1)] == [0] * (FREE_BY_NAME - 1)
        assert guess(throttle, "Carl", "2.2.2.2", is_right=True) == 0
    for at in range(FREE_BY_ADDRESS - 1 - 2 * (FREE_BY_NAME - 1)):
        assert guess(throttle, f"name {at}", "2.2.2.2") == 0
    # however many log in with right passwords, at once too, they count for nothing
    for at in range(2 * FREE_BY_ADDRESS):
        assert throttle.wait_of(f"clerk {at}", "2.2.2.2") == 0
    for at in range(2 * FREE_BY_ADDRESS):
        assert throttle.tried(f"clerk {at}", "2.2.2.2", True) == 0
    assert guess(throttle, "one", "2.2.2.2") == 0 and guess(throttle, "other", "2.2.2.2") == 1


def test_throttle_of_a_course() -> None:
    """However many log in at once from one address, none waits whose password is right."""
    throttle = Throttle()
    assert [guess(throttle, f"name {at}", "1.1.1.1", is_right=True) for at in range(2 * FREE_BY_ADDRESS)] == [0] * 40


def test_throttle_at_once() -> None:
    """Whoever tries many passwords at once is told of so many alone as one after the other."""
    throttle = Throttle(lambda: 0.0)
    assert [throttle.wait_of("Carl", "1.1.1.1") for _ in range(100)] == [0] * 100
    told = [throttle.tried("Carl", "1.1.1.1", is_right=at == 50) for at in range(100)]
    assert told == [0] * FREE_BY_NAME + [1] * (100 - FREE_BY_NAME)


def test_throttle_after_an_hour() -> None:
    """What was guessed an hour ago counts no more."""
    now = [0.0]
    throttle = Throttle(lambda: now[0])
    for hour in range(2):
        now[0] = (SECONDS + 1) * hour
        assert [guess(throttle, "Carl", "1.1.1.1") for _ in range(FREE_BY_NAME + 1)] == [0] * FREE_BY_NAME + [1]


def test_throttle_full() -> None:
    """However many names are guessed at, the last ones are kept in mind."""
    throttle, others = Throttle(lambda: 0.0), iter(range(MOST))

    def guess_others() -> None:
        for at in [next(others) for _ in range(MOST * 3 // 10)]:
            guess(throttle, f"name {at}", f"10.1.{at >> 8}.{at & 255}")

    guess(throttle, "Carl", "1.1.1.1")
    guess_others()
    for at in range(1, FREE_BY_NAME):
        guess(throttle, "Carl", f"1.1.1.{at + 1}")
    guess_others()
    assert guess(throttle, "Carl", "2.2.2.2") == 1
    for at in range(FREE_BY_NAME):
        assert guess(throttle, "Clara", f"3.3.3.{at}") == 0
    assert guess(throttle, "Clara", "4.4.4.4") == 1


def test_log_in_lines() -> None:
    """Whatever is told is a line of its own, and does nothing to a terminal."""
    out = io.StringIO()
    AccessLog(out).tell("one\r\nforged \x1b[2J\u202ex")
    assert out.getvalue().endswith("Z one\\x0d\\x0aforged \\x1b[2J\\u202ex\n")


def test_log_for_journald(tmp_path: pathlib.Path, monkeypatch: pytest.MonkeyPatch) -> None:
    """Where systemd reads it a line begins with how grave it is, as syslog counts; nowhere else."""
    with open(tmp_path / "log", "w+", encoding="utf-8") as out:
        found = os.fstat(out.fileno())
        for stream in f"{found.st_dev}:{found.st_ino}", f"{found.st_dev}:1", "":
            monkeypatch.setenv("JOURNAL_STREAM", stream)
            AccessLog(out).tell("a disk is full", FAULT)
            AccessLog(out).tell("somebody asked")
        out.seek(0)
        begins = [line.partition("20")[0] for line in out]
    assert begins == ["<3>", "<6>", "", "", "", ""]


def test_full_disk(accounts: Accounts, monkeypatch: pytest.MonkeyPatch) -> None:
    """Whoever is logged in is so still where there is no room for what SQLite has beside the file that it asks; but for
    what isn't in the file yet, without which it would tell of an earlier state."""
    account = accounts.fits("Carl", WORD)
    assert account
    token = accounts.begin_login(account)
    accounts.path.with_name(f"{accounts.path.name}-shm").symlink_to("nowhere")
    with pytest.raises(Mistake, match="the accounts can't be read"):
        accounts.person_of(token)
    monkeypatch.setattr(accounts_file, "is_full", lambda _: True)
    assert accounts.person_of(token) == Person("Carl", CLERK) and len(accounts.all()) == 2
    with pytest.raises(Mistake, match="there is no room"):
        accounts.end_login(token)
    accounts.path.with_name(f"{accounts.path.name}-wal").write_bytes(b"not in the file yet")
    with pytest.raises(Mistake, match="there is no room"):
        accounts.person_of(token)


def test_log_that_is_full() -> None:
    """Nobody's work ends where the log can't be written."""
    closed = io.StringIO()
    closed.close()
    AccessLog(closed).tell("something")
    with open("/dev/full", "w", encoding="utf-8") as full:
        AccessLog(full).tell("something")
        with contextlib.suppress(OSError):
            full.close()


def test_changed_meanwhile(accounts: Accounts, monkeypatch: pytest.MonkeyPatch) -> None:
    """Where an account is removed, or gets another password, while its old password is looked at, no login begins; and
    nobody is told that an account was changed that somebody else removed."""
    before = accounts.fits("Carl", WORD)
    assert before
    other = "quite another word"
    accounts.change_password("Carl", other, other)
    with pytest.raises(Mistake, match="changed or removed this account meanwhile"):
        accounts.begin_login(before)
    now = accounts.fits("Carl", other)
    assert now and accounts.person_of(accounts.begin_login(now))
    accounts.remove("Carl")
    # it was there when its page was made
    monkeypatch.setattr(accounts, "found", lambda name: now)
    with pytest.raises(Mistake, match="there is no account 'Carl'"):
        accounts.change_role("Carl", AccountRole.CLERK)
    with pytest.raises(Mistake, match="changed or removed this account meanwhile"):
        accounts.begin_login(now)
