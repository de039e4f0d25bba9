"""The accounts of those who may use a book, who of them is logged in, and their passwords as they are kept."""
from __future__ import annotations

import hashlib
import hmac
import pathlib
import secrets
import sqlite3
import threading
import time
import unicodedata
from collections.abc import Callable
from dataclasses import dataclass, field

from gudokeyi.domain.messages import Mistake
from gudokeyi.domain.people import AccountRole, Person
from gudokeyi.store import accounts_file
from gudokeyi.store.database import ACCOUNTS
from gudokeyi.store.messages import AccountFault

# Passwords as they are kept: by scrypt with a salt of their own, from which nobody reads them.

LEAST_PASSWORD_LETTERS, MOST_PASSWORD_LETTERS = 10, 200
# what a guess costs, as scrypt's n, r and p: 32 MB, three times
COST = (1 << 15, 8, 3)
MOST_BYTES = 80 << 20
# so many are computed at once, whoever asks; `web/request_threads.py` has no more threads for them
AT_ONCE = threading.Semaphore(3)


@dataclass(frozen=True, slots=True)
class StoredPassword:
    """What is kept of a password, with what its computation costs."""

    salt: bytes
    digest: bytes
    n: int
    r: int
    p: int


def kept_of(password: str) -> StoredPassword:
    salt = secrets.token_bytes(16)
    return StoredPassword(salt, password_digest(password, StoredPassword(salt, b"", *COST)), *COST)


def fits(password: str, kept: StoredPassword | None) -> bool:
    """Is it this password? The answer takes as long whatever is guessed, and also where there is no account."""
    guess = password if len(password) <= MOST_PASSWORD_LETTERS else ""
    kept = kept or StoredPassword(bytes(16), bytes(32), *COST)
    return hmac.compare_digest(password_digest(guess, kept), kept.digest)


def password_digest(password: str, kept: StoredPassword) -> bytes:
    # a letter with a mark is the same however a keyboard makes it
    text = unicodedata.normalize("NFKC", password).encode("utf-8", "replace")
    with AT_ONCE:
        return hashlib.scrypt(text, salt=kept.salt, n=kept.n, r=kept.r, p=kept.p, maxmem=MOST_BYTES, dklen=32)


def checked(password: str, again: str, name: str) -> str:
    """A password that was written twice; a mistake where it is none that may be chosen."""
    if password != again:
        raise Mistake(AccountFault.NOT_THE_SAME.said())
    if not LEAST_PASSWORD_LETTERS <= len(password) <= MOST_PASSWORD_LETTERS:
        raise Mistake(AccountFault.LENGTH.said(least=LEAST_PASSWORD_LETTERS, most=MOST_PASSWORD_LETTERS))
    if len(set(password)) < 5 or name.casefold() in password.casefold() and len(
        password
    ) < LEAST_PASSWORD_LETTERS + len(name):
        raise Mistake(AccountFault.GUESSED.said())
    return password


# The accounts of those who may use a book, and who of them is logged in.

# so long a login holds, in seconds
A_DAY = 24 * 3600
MOST_NAME_LETTERS = 40


@dataclass(frozen=True, slots=True)
class Account:
    name: str
    role: AccountRole
    # was the password given by somebody else, who knows it?
    for_one_login: bool = False
    # what is kept of the password by which it was seen who asks: a login begins by no other
    digest: bytes = field(default=b"", repr=False)


class Accounts:
    """Those beside the book of a folder."""

    def __init__(self, folder: pathlib.Path, clock: Callable[[], float] = time.time) -> None:
        self.path, self.clock = folder / ACCOUNTS, clock
        self.are_there = self.path.exists()
        if self.are_there:
            accounts_file.look_at(self.path)

    def all(self) -> list[Account]:
        if not self.are_there:
            return []
        with accounts_file.opened(self.path, reads=True) as connection:
            rows = connection.execute("SELECT name, role FROM account ORDER BY folded")
            return [Account(name, AccountRole(role)) for name, role in rows]

    def copy(self, path: pathlib.Path) -> None:
        """Writes a copy, which nobody reads but its owner, whoever changes the accounts meanwhile."""
        if not self.are_there:
            raise Mistake(AccountFault.NONE_THERE.said())
        accounts_file.copy(self.path, path)

    def found(self, name: str) -> Account | None:
        return next((one for one in self.all() if folded(one.name) == folded(name)), None)

    def key(self) -> bytes:
        """With which cookies are signed; it stays when the server is started again."""
        with accounts_file.opened(self.path) as connection:
            return bytes(connection.execute("SELECT key FROM signing").fetchone()[0])

    def add(self, name: str, role: AccountRole, password: str, again: str, for_one_login: bool = False) -> None:
        name = name_of(name)
        kept = kept_of(checked(password, again, name))
        accounts_file.make(self.path)
        self.are_there = True
        with accounts_file.opened(self.path) as connection:
            connection.execute("BEGIN IMMEDIATE")
            if role is not AccountRole.KEEPER and not keepers(connection):
                raise first_is_keeper()
            row = (folded(name), name, role.value, kept.salt, kept.digest, kept.n, kept.r, kept.p, for_one_login)
            try:
                connection.execute("INSERT INTO account VALUES (?, ?, ?, ?, ?, ?, ?, ?, ?)", row)
            except sqlite3.IntegrityError:
                raise Mistake(AccountFault.NAME_IS_TAKEN.said(name=name)) from None
            connection.execute("COMMIT")

    def change_role(self, name: str, role: AccountRole) -> None:
        """Gives another role, and ends what the account is logged in."""
        self.change(name, "UPDATE account SET role = ? WHERE folded = ?", role.value)

    def change_password(self, name: str, password: str, again: str, for_one_login: bool = False) -> bytes:
        """Gives another password, and ends what the account is logged in; answers the digest that is kept. One that
        somebody else gave is for one login: whoever has it is asked for one of their own."""
        kept = kept_of(checked(password, again, name))
        values = (kept.salt, kept.digest, kept.n, kept.r, kept.p, for_one_login)
        given = "salt = ?, digest = ?, n = ?, r = ?, p = ?, for_one_login = ?"
        self.change(name, f"UPDATE account SET {given} WHERE folded = ?", *values)
        return kept.digest

    def remove(self, name: str) -> None:
        self.change(name, "DELETE FROM account WHERE folded = ?")

    def change(self, name: str, statement: str, *values: object) -> None:
        """Changes an account that is there; one keeper stays."""
        if self.found(name) is None:
            raise no_account(name)
        with accounts_file.opened(self.path) as connection:
            connection.execute("BEGIN IMMEDIATE")
            connection.execute("DELETE FROM login WHERE folded = ?", (folded(name),))
            if not connection.execute(statement, (*values, folded(name))).rowcount:
                # somebody else removed it meanwhile
                raise no_account(name)
            if not keepers(connection):
                raise Mistake(AccountFault.NO_KEEPER.said())
            connection.execute("COMMIT")

    def fits(self, name: str, password: str) -> Account | None:
        """The account of a name, if this is its password. It takes as long whether there is such an account or not."""
        with accounts_file.opened(self.path) as connection:
            chosen = "SELECT name, role, for_one_login, salt, digest, n, r, p FROM account WHERE folded = ?"
            row = connection.execute(chosen, (folded(name),)).fetchone()
        is_right = fits(password, StoredPassword(*row[3:]) if row else None)
        return Account(row[0], AccountRole(row[1]), bool(row[2]), row[4]) if row and is_right else None

    def begin_login(self, account: Account) -> str:
        """The token of a new login, of which its digest alone is kept; a mistake where the account was removed, or has
        another password, since it was seen that its password is right."""
        token, now = secrets.token_urlsafe(32), int(self.clock())
        with accounts_file.opened(self.path) as connection:
            connection.execute("DELETE FROM login WHERE began <= ?", (now - A_DAY,))
            begun = "INSERT INTO login SELECT ?, folded, ? FROM account WHERE folded = ? AND digest = ?"
            values = token_digest(token), now, folded(account.name), account.digest
            if not connection.execute(begun, values).rowcount:
                raise Mistake(AccountFault.CHANGED_MEANWHILE.said())
        return token

    def person_of(self, token: str) -> Person | None:
        """Who is logged in by a token."""
        chosen = "SELECT name, role, for_one_login FROM login JOIN account USING (folded) WHERE login.digest = ? AND began > ?"
        with accounts_file.opened(self.path, reads=True) as connection:
            row = connection.execute(chosen, (token_digest(token), int(self.clock()) - A_DAY)).fetchone()
        return Person(row[0], AccountRole(row[1]), bool(row[2])) if row else None

    def end_login(self, token: str) -> None:
        with accounts_file.opened(self.path) as connection:
            connection.execute("DELETE FROM login WHERE digest = ?", (token_digest(token),))


def token_digest(token: str) -> bytes:
    return hashlib.sha256(token.encode("utf-8", "replace")).digest()


def folded(name: str) -> str:
    return unicodedata.normalize("NFKC", name).strip().casefold()


def name_of(text: str) -> str:
    """A name as it is kept; a mistake where it is none."""
    name = " ".join(unicodedata.normalize("NFC", text).split())
    if not name or len(name) > MOST_NAME_LETTERS or not name.isprintable() or not name[0].isalnum():
        raise Mistake(AccountFault.NO_NAME.said(name=name, most=MOST_NAME_LETTERS))
    return name


def keepers(connection: sqlite3.Connection) -> int:
    chosen = "SELECT count(*) FROM account WHERE role = ?"
    return int(connection.execute(chosen, (AccountRole.KEEPER.value,)).fetchone()[0])


def no_account(name: str) -> Mistake:
    return Mistake(AccountFault.NO_ACCOUNT.said(name=name))


def first_is_keeper() -> Mistake:
    return Mistake(AccountFault.FIRST_IS_KEEPER.said())
