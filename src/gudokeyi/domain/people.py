"""Who works at a book, and what each may do."""
from __future__ import annotations

import contextvars
import enum
from typing import NamedTuple


class AccountRole(enum.StrEnum):
    """What somebody may do. Each may do also what the ones before may."""

    # reads all
    INSPECTOR = "inspector"
    # files commands and takes sheets
    CLERK = "clerk"
    # undoes changes, merges and erases owners, and changes settings and accounts; `web/access.py` has each role's pages
    KEEPER = "keeper"

    def may(self, least: AccountRole) -> bool:
        order = list(AccountRole)
        return order.index(self) >= order.index(least)


class Person(NamedTuple):
    """Who asks. Whoever has no name here is named by the system."""

    name: str
    role: AccountRole
    # a keeper gave the password, which is to be changed before anything else is done
    for_one_login: bool = False


# who works here by a name of the society's own, as those at a desk with accounts; empty for whom the system names
WORKER: contextvars.ContextVar[str] = contextvars.ContextVar("worker", default="")
