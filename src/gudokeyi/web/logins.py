"""The way in for several people: each has an account, is known by a cookie from the login on, guesses of passwords are
slowed down, and what was asked and refused is logged."""
from __future__ import annotations

import contextlib
import datetime
import ipaddress
import re
import threading
import time
from collections import OrderedDict
from collections.abc import Callable
from dataclasses import dataclass
from typing import TextIO

from flask import Flask, current_app, g, request, session
from flask.typing import ResponseReturnValue
from flask.wrappers import Response
from werkzeug.exceptions import HTTPException

from gudokeyi.domain.cells import escape, for_terminals
from gudokeyi.domain.people import Person
from gudokeyi.process import CHANGED, FAULT, REFUSED, USUAL, how_grave
from gudokeyi.services.accounts import A_DAY, Account, Accounts, folded
from gudokeyi.web.access import ARRIVED, WAIT_AS_IT_CAME, the_logins, the_person
from gudokeyi.web.addresses import ServerAddress

# Guesses of passwords are slowed down: after a few by one name or from one address each has to wait, twice as long as
# the one before.

# so many guesses are free by one name, and from one address, behind which several may sit
FREE_BY_NAME, FREE_BY_ADDRESS = 5, 20
# addresses of IPv6 that begin with so many bits count as one
BITS_OF_NETWORK = 56
# nobody waits longer, in seconds
LONGEST = 900
# so long a guess counts, in seconds, and so many names and addresses are kept in mind
SECONDS, MOST = 3600, 20_000


@dataclass
class Guesses:
    """How many wrong passwords came by one name or from one address, and when the last one did."""

    count: int = 0
    last: float = 0


class Throttle:
    """How long somebody has to wait before another password may be tried."""

    def __init__(self, clock: Callable[[], float] = time.monotonic) -> None:
        self.clock, self.lock = clock, threading.Lock()
        self.guesses: OrderedDict[tuple[str, str], Guesses] = OrderedDict()

    def wait_of(self, name: str, address: str) -> int:
        """So many seconds somebody has to wait; 0 where a password may be tried."""
        with self.lock:
            return self.seconds(keys_of(name, address))

    def wait_of_network(self, network: str) -> int:
        """The same for whatever name."""
        with self.lock:
            return self.seconds({("address", network): FREE_BY_ADDRESS})

    def tried(self, name: str, address: str, is_right: bool) -> int:
        """Counts a password that was wrong; a right one ends what is counted by the name. Where others were wrong
        meanwhile it isn't told what this one was, but how many seconds to wait: who tries many at once learns no
        more."""
        keys = keys_of(name, address)
        with self.lock:
            wait = self.seconds(keys)
            if wait:
                return wait
            for key in keys if not is_right else ():
                self.count(key)
            if is_right:
                self.guesses.pop(("name", name), None)
            return 0

    def seconds(self, keys: dict[tuple[str, str], int]) -> int:
        return max(0, int(-(-max(self.wait(key, free) for key, free in keys.items()) // 1)))

    def wait(self, key: tuple[str, str], free: int) -> float:
        found = self.guesses.get(key)
        if found is None or self.clock() - found.last > SECONDS or found.count < free:
            return 0
        return found.last + min(2.0 ** min(found.count - free, 30), LONGEST) - self.clock()

    def count(self, key: tuple[str, str]) -> None:
        found = self.guesses.setdefault(key, Guesses())
        if self.clock() - found.last > SECONDS:
            found.count = 0
        found.count, found.last = found.count + 1, self.clock()
        self.guesses.move_to_end(key)
        while len(self.guesses) > MOST:
            self.guesses.popitem(last=False)


def keys_of(name: str, address: str) -> dict[tuple[str, str], int]:
    """What guesses are counted by, each with how many are free."""
    return {("name", name): FREE_BY_NAME, ("address", network_of(address)): FREE_BY_ADDRESS}


def network_of(address: str) -> str:
    """An address, or of one of IPv6 the network that one household or office has."""
    try:
        found = ipaddress.ip_address(address.partition("%")[0])
    except ValueError:
        return address
    return str(ipaddress.ip_network((found, BITS_OF_NETWORK), strict=False)) if found.version == 6 else address


# The log of what was asked and refused: a line for each request, without what somebody wrote into forms or addresses.
# systemd's journal shows what was refused apart, and so the faults, and what became of accounts.

# what stands before the name of a part of an address, as `int:`
CONVERTER = re.compile("<[^<>]*:")


class AccessLog:
    def __init__(self, out: TextIO) -> None:
        self.out, self.lock = out, threading.Lock()

    def set_up(self, app: Flask) -> None:
        app.before_request(begin)
        app.after_request(self.tell_answer)

    def tell_answer(self, response: Response) -> Response:
        """Who asked for which kind of page, and how that ended. A page's own address may have a token in it."""
        person = the_person()
        # a name ends where its role begins
        who = f"{person.name.replace('(', escape('('))} ({person.role})" if person else "-"
        if request.endpoint == "static":
            return response
        rule = CONVERTER.sub("<", request.url_rule.rule) if request.url_rule else "-"
        took = round((time.monotonic() - g.get("began", time.monotonic())) * 1000)
        why = "".join(f" {g.get(name)}" for name in ("refused", "done") if name in g)
        if response.status_code >= 400 and "refused" not in g:
            why = "".join(f" {one}" for one in dict.fromkeys(g.get("told", [])))
        line = f"{g.get('client', '-')} {who} {request.method} {rule} {response.status_code} {took}ms{why}"
        self.tell(line, priority_of(response.status_code))
        return response

    def tell(self, what: str, priority: int = USUAL) -> None:
        now = datetime.datetime.now(datetime.timezone.utc)
        # nobody's work ends where the log can't be written
        with self.lock, contextlib.suppress(OSError, ValueError):
            line = for_terminals(what).replace("\n", escape("\n"))
            print(f"{how_grave(priority, self.out)}{now:%Y-%m-%dT%H:%M:%SZ} {line}", file=self.out, flush=True)


def priority_of(status: int) -> int:
    if status >= 500:
        return FAULT
    return REFUSED if status >= 400 else CHANGED if "done" in g else USUAL


def begin() -> None:
    # how long it waited for a thread is told too
    g.began = request.environ.get(ARRIVED, time.monotonic())


# The way in of a desk for several people: each has an account, and is known by a cookie from the login on.

# the token of a login
LOGIN = "login"
MOST_LETTERS = 100


@dataclass(frozen=True)
class AccountLogins:
    accounts: Accounts
    address: ServerAddress
    throttle: Throttle
    log: AccessLog

    def set_up(self, app: Flask) -> None:
        from gudokeyi.web.routes import accounts, login

        app.config.update(
            SECRET_KEY=self.accounts.key(),
            # a link in a letter leads in
            SESSION_COOKIE_SAMESITE="Lax",
            SESSION_COOKIE_SECURE=bool(self.address.proxy),
            SESSION_COOKIE_NAME=self.address.cookie,
            PERMANENT_SESSION_LIFETIME=datetime.timedelta(seconds=A_DAY),
        )
        self.log.set_up(app)
        app.register_blueprint(login.page)
        app.register_blueprint(accounts.page)

    def origin(self) -> str:
        g.client = self.address.client()
        return self.address.origin()

    def person(self) -> Person | None:
        token = session.get(LOGIN)
        return self.accounts.person_of(token) if isinstance(token, str) else None

    def network(self) -> str:
        with contextlib.suppress(HTTPException):
            return network_of(self.address.client())
        return request.remote_addr or ""

    def wait_of(self, network: str) -> int:
        return self.throttle.wait_of_network(network)

    def stranger(self) -> ResponseReturnValue:
        from gudokeyi.web.routes.login import asked_to_log_in

        g.refused = "refused login"
        return asked_to_log_in()

    def not_allowed(self) -> str:
        return "role"

    def try_to_log_in(self, name: str, password: str) -> Account | int:
        """The account, or how many seconds somebody has to wait; 0 where name or password are wrong."""
        key = folded(name)[:MOST_LETTERS]
        wait = request.environ.get(WAIT_AS_IT_CAME, 0) or self.throttle.wait_of(key, g.client)
        account = None
        if not wait:
            account = self.accounts.fits(name, password)
            wait = self.throttle.tried(key, g.client, account is not None)
        if wait:
            g.refused = "refused wait"
            return wait
        if account is None:
            # whoever is no account may be a password in the wrong field
            named = self.accounts.found(name)
            g.refused = f"refused login as {named.name}" if named else "refused login of an unknown name"
            return 0
        return account

    def begin(self, account: Account) -> None:
        """Begins a login: what the browser had before is forgotten, but for the language."""
        kept = {name: session[name] for name in ("language",) if name in session}
        self.end()
        session.update(kept)
        session.permanent = True
        session[LOGIN] = self.accounts.begin_login(account)
        g.person = Person(account.name, account.role, account.for_one_login)

    def end(self) -> None:
        token = session.get(LOGIN)
        if isinstance(token, str):
            self.accounts.end_login(token)
        session.clear()
        # the token of forms is kept for the request too
        g.pop(current_app.config.get("WTF_CSRF_FIELD_NAME", "csrf_token"), None)


def the_account_logins() -> AccountLogins:
    logins = the_logins()
    assert isinstance(logins, AccountLogins)
    return logins
