"""The page of accounts, for keepers: who may use the book, and as what."""
from __future__ import annotations

from collections.abc import Callable

from flask import Blueprint, flash, g, redirect, render_template, request, url_for

from gudokeyi.domain.messages import Mistake
from gudokeyi.domain.people import AccountRole
from gudokeyi.render.page_wording import MessageView
from gudokeyi.services.accounts import AccountFault, Accounts
from gudokeyi.web.access import the_person
from gudokeyi.web.language import gettext, on_page
from gudokeyi.web.logins import the_account_logins
from gudokeyi.web.served_book import Answer

page = Blueprint("accounts", __name__)


@page.get("/accounts", endpoint="page")
def accounts() -> Answer:
    return shown([])


def shown(faults: list[MessageView], status: int = 400) -> Answer:
    given = {"name": request.form.get("name", ""), "role": request.form.get("role", "")} if faults else {}
    accounts = the_account_logins().accounts.all()
    text = render_template("accounts.html", accounts=accounts, roles=list(AccountRole), faults=faults, given=given)
    return (text, status) if faults else text


def done(change: Callable[[Accounts], None], told: str, what: str) -> Answer:
    """Changes the accounts, and says so; what was done stands in the log."""
    try:
        change(the_account_logins().accounts)
    except Mistake as mistake:
        return shown(on_page(mistake.sentences))
    g.done = what
    flash(told, "done")
    return redirect(url_for("accounts.page"))


def role_given() -> AccountRole:
    try:
        return AccountRole(request.form.get("role", ""))
    except ValueError:
        raise Mistake(AccountFault.NO_ROLE.said()) from None


def refuse_other_keeper() -> None:
    """A mistake where whoever changes accounts doesn't know the own password, as who finds a browser that a keeper
    left."""
    person = the_person()
    assert person
    found = the_account_logins().try_to_log_in(person.name, request.form.get("own", ""))
    if isinstance(found, int):
        raise Mistake(AccountFault.WAIT.said(seconds=found) if found else AccountFault.OWN_WRONG.said())


@page.post("/accounts")
def add() -> Answer:
    """A new account, with a password that its owner changes at the first login."""
    given, name = request.form, request.form.get("name", "")

    def added(accounts: Accounts) -> None:
        refuse_other_keeper()
        accounts.add(name, role_given(), given.get("password", ""), given.get("again", ""), for_one_login=True)

    return done(added, gettext("{} has an account.", name), f"account of {name} made: {given.get('role', '')}")


@page.post("/accounts/change")
def change() -> Answer:
    """Another role, or another password for somebody who forgot it, and who changes it at the next login."""
    given, name = request.form, request.form.get("name", "")
    is_password = bool(given.get("password"))

    def changed(accounts: Accounts) -> None:
        refuse_other_keeper()
        if is_password:
            accounts.change_password(name, given["password"], given.get("again", ""), for_one_login=True)
        else:
            accounts.change_role(name, role_given())

    what = "password given" if is_password else f"role {given.get('role', '')}"
    told = gettext("The account of {} is changed, and its logins are ended.", name)
    return done(changed, told, f"account of {name}: {what}")


@page.get("/accounts/remove")
def ask_removal() -> Answer:
    """Asks whether an account is to be removed, which somebody else may have removed by now."""
    name = request.args.get("name", "")
    found = the_account_logins().accounts.found(name)
    if found is None:
        return shown(on_page((AccountFault.NO_ACCOUNT.said(name=name),)), 404)
    return render_template("remove_account.html", account=found)


@page.post("/accounts/remove")
def remove() -> Answer:
    name = request.form.get("name", "")

    def removed(accounts: Accounts) -> None:
        refuse_other_keeper()
        accounts.remove(name)

    return done(removed, gettext("The account of {} is removed.", name), f"account of {name} removed")
