"""The words for a book that several people use at once: `serve` and `account`."""
from __future__ import annotations

import argparse
import getpass
import pathlib
import syslog

from gudokeyi.cli.parser import CommandWords
from gudokeyi.domain.messages import Mistake
from gudokeyi.domain.mistakes import WrongWords
from gudokeyi.packages import Group, need

ROLES = ("inspector", "clerk", "keeper")
LOOPBACK = "127.0.0.1"


def add_words(words: CommandWords) -> None:
    served = words.add(
        "serve",
        do_serve,
        "answer the browsers of several people, each with an account, until Ctrl-C or SIGTERM",
        "docs/SERVING.md says how it is set up.",
    )
    served.add_argument(
        "--listen", required=True, metavar="ADDRESS:PORT", help="where browsers, or their proxy, ask: 127.0.0.1:8080"
    )
    served.add_argument(
        "--name", action="append", default=[], metavar="NAME",
        help="the name by which browsers ask, as herdbook.example.org, with its port where it isn't the usual one",
    )  # fmt: skip
    how = served.add_mutually_exclusive_group()
    how.add_argument(
        "--behind-proxy", nargs="?", const=LOOPBACK, default="", metavar="ADDRESS",
        help="a proxy at this address [127.0.0.1] has the certificate for https, and alone is answered",
    )  # fmt: skip
    how.add_argument(
        "--insecure", action="store_true",
        help="answer on an address of the network without https: whoever is between reads passwords",
    )  # fmt: skip
    account = words.add(
        "account", do_account, "who may use the book that is served", "The password is asked for, twice."
    )
    account.add_argument("name", nargs="?", metavar="NAME", help="whose account")
    account.add_argument(
        "--role", choices=ROLES,
        help="inspectors read all, clerks file too, keepers also undo, restore, and change settings and accounts",
    )  # fmt: skip
    account.add_argument("--remove", action="store_true", help="take the account away")
    account.add_argument("--list", action="store_true", help="show all accounts")
    account.add_argument("--copy", type=pathlib.Path, metavar="FILE", help="write a copy of all accounts, for a backup")


def do_serve(asked: argparse.Namespace) -> None:
    need(Group.BROWSER)
    need(Group.BREED)
    from gudokeyi.services.book_session import BookSession
    from gudokeyi.web.addresses import listen_address
    from gudokeyi.web.server import serve

    place, proxy = listen_address(asked.listen), asked.behind_proxy
    if not place.is_loopback and not proxy and not asked.insecure:
        raise WrongWords(
            f"{place.address} is an address of the network, on which passwords would be read by others: say "
            "--behind-proxy where a proxy has a certificate, or --insecure if it has to be so"
        )
    program = BookSession.for_many()
    program.look_for()
    program.refuse_other()
    serve(asked.book, program, place, asked.name, proxy)


def do_account(asked: argparse.Namespace) -> None:
    need(Group.BROWSER)
    from gudokeyi.domain.people import AccountRole
    from gudokeyi.services.accounts import Accounts, make_folder

    accounts = Accounts(asked.book)
    if asked.list:
        for one in accounts.all():
            print(f"{one.name}: {one.role}")
        return
    if asked.copy:
        accounts.copy(asked.copy)
        return
    if not asked.name:
        raise WrongWords("whose account? Name it, or say --list")
    there = accounts.found(asked.name)
    if asked.remove:
        accounts.remove(asked.name)
        tell(f"{asked.name} has no account any more")
    elif there and asked.role:
        accounts.change_role(asked.name, AccountRole(asked.role))
        tell(f"{there.name} is {asked.role} now; the password stays")
    elif there:
        accounts.change_password(asked.name, *asked_twice())
        tell(f"{there.name} has a new password")
    elif asked.role:
        make_folder(asked.book)
        accounts.add(asked.name, AccountRole(asked.role), *asked_twice())
        tell(f"{asked.name} has an account: {asked.role}")
    else:
        raise WrongWords(f"which role has {asked.name}? Say --role, and one of {', '.join(ROLES)}")


def tell(what: str) -> None:
    """Tells what was done, also the machine's log, with who did it."""
    from gudokeyi.services.accounts import login

    print(what)
    syslog.openlog("gudokeyi", 0, syslog.LOG_AUTH)
    syslog.syslog(syslog.LOG_NOTICE, f"account, by {login()}: {what}")


def asked_twice() -> tuple[str, str]:
    """A password as it is written without being seen, twice."""
    try:
        return getpass.getpass("Password: "), getpass.getpass("The same again: ")
    except EOFError:
        raise Mistake("no password was written: nothing is changed") from None
