"""The pages on which one logs in and out, and gives oneself another password. What somebody was writing when a login
ran out is kept."""
from __future__ import annotations

import contextlib
from dataclasses import replace

from flask import Blueprint, current_app, flash, g, make_response, redirect, render_template, request, url_for
from werkzeug.exceptions import HTTPException
from werkzeug.wrappers import Response

from gudokeyi.domain.messages import Mistake
from gudokeyi.domain.settings import Setting
from gudokeyi.render.page_wording import MessageView
from gudokeyi.services.accounts import AccountFault
from gudokeyi.services.settings import settings_of
from gudokeyi.web.access import LEAST, MOST_FORM_BYTES, REFUSED_AS_IT_CAME, may, the_person, way_back
from gudokeyi.web.language import gettext, ngettext, on_page
from gudokeyi.web.logins import the_account_logins
from gudokeyi.web.served_book import Answer, served_book

page = Blueprint("login", __name__)
LOGIN_OVER = "You aren't logged in any more. Log in: what you wrote is kept, and nothing was filed yet."
WRONG_LOGIN = "The name or the password is wrong."
WRONG_PASSWORD = "The password that you have now is wrong."
WAIT = (
    "There were too many wrong passwords. Wait {} second, then try again.",
    "There were too many wrong passwords. Wait {} seconds, then try again.",
)
# what is told where so many logins wait that no more do, and after how many seconds one comes again
MANY, SECONDS_FOR_MANY = "Very many people are logging in at this moment. Wait some seconds, then try again.", 5
# what of a form is kept: so many fields, each of so many letters, and no secrets
MOST_FIELDS, MOST_LETTERS = 60, 2_000
SECRETS = ("csrf_token", "password", "new", "again")
KEPT, KEPT_TO = "kept-", "kept to"
FORM = "application/x-www-form-urlencoded"
Fields = list[tuple[str, str]]


def asked_to_log_in() -> Answer:
    """What somebody is shown who isn't logged in: the way to the page that was asked for, or with what was written into
    a form."""
    if request.method == "POST":
        fields: Fields = []
        if request.mimetype == FORM and (request.content_length or 0) <= MOST_FORM_BYTES:
            fields = [(name, text[:MOST_LETTERS]) for name, text in request.form.items(multi=True)][:MOST_FIELDS]
        kept = [(name, text) for name, text in fields if name not in SECRETS]
        return form([gettext(LOGIN_OVER)], kept, request.path, 401)
    return redirect(url_for("login.page", to=request.full_path.rstrip("?")))


def form(told: list[str], kept: Fields, kept_to: str, status: int, to: str = "") -> Answer:
    name = request.form.get("name", "") if request.endpoint == "login.enter" else ""
    society = {Setting.NAME: "", Setting.ADDRESS: ""}
    # a book that can't be read is told behind the login
    with contextlib.suppress(Mistake), served_book().opened() as book:
        society = settings_of(book) if book else society
    return render_template(
        "login.html", told=told, kept=kept, kept_to=kept_to, to=to, name=name, society=society[Setting.NAME],
        address=society[Setting.ADDRESS].splitlines(),
    ), status  # fmt: skip


@page.get("/login", endpoint="page")
def login() -> Answer:
    return form([], [], "", 200, request.args.get("to", ""))


@page.post("/login")
def enter() -> Answer:
    logins, given = the_account_logins(), request.form
    kept = [(name.removeprefix(KEPT), text) for name, text in given.items(multi=True) if name.startswith(KEPT)]
    kept_to, to = given.get(KEPT_TO, ""), given.get("to", "")
    refused = request.environ.get(REFUSED_AS_IT_CAME)
    if refused:
        g.refused = "refused many logins"
        return behind(SECONDS_FOR_MANY, form([gettext(MANY)], kept, kept_to, refused, to))
    try:
        found = logins.try_to_log_in(given.get("name", ""), given.get("password", ""))
        if not isinstance(found, int):
            logins.begin(found)
    except Mistake as mistake:
        return form([one.text for one in on_page(mistake.sentences)], kept, kept_to, 400, to)
    if isinstance(found, int):
        page = form([not_let_in(found, WRONG_LOGIN)], kept, kept_to, 429 if found else 401, to)
        return behind(found, page) if found else page
    endpoint = form_at(kept_to)
    if endpoint and may(endpoint):
        return render_template("again.html", kept=kept[:MOST_FIELDS], kept_to=kept_to)
    if endpoint:
        flash(gettext("Your role doesn't allow this: ask a keeper of the book."), "look")
    return redirect(way_back(to))


def behind(seconds: int, page: Answer) -> Response:
    """A page that tells programs too when to come again."""
    response = make_response(page)
    response.headers["Retry-After"] = str(seconds)
    return response


def not_let_in(seconds: int, wrong: str) -> str:
    """Why a password doesn't serve: it is wrong, or so long none is looked at."""
    return ngettext(*WAIT, seconds) if seconds else gettext(wrong)


def form_at(path: str) -> str:
    """The page of a form of this desk that has an address, empty where there is none."""
    try:
        endpoint, _ = current_app.url_map.bind("localhost").match(path, "POST")
    except HTTPException:
        return ""
    return endpoint if endpoint in LEAST else ""


@page.post("/logout")
def leave() -> Response:
    the_account_logins().end()
    flash(gettext("You are logged out."), "done")
    return redirect(url_for("login.page"))


@page.get("/password")
def password() -> Answer:
    return render_template("password.html", faults=[])


@page.post("/password")
def change_password() -> Answer:
    """Gives whoever asks another password; where else they are logged in they aren't any more."""
    logins, person, given = the_account_logins(), the_person(), request.form
    assert person
    try:
        found = logins.try_to_log_in(person.name, given.get("password", ""))
        if isinstance(found, int):
            told = not_let_in(found, WRONG_PASSWORD)
            return render_template("password.html", faults=[MessageView(told)]), 400
        if found.for_one_login and given.get("new") == given.get("password"):
            raise Mistake(AccountFault.NOT_NEW.said())
        digest = logins.accounts.change_password(person.name, given.get("new", ""), given.get("again", ""))
        logins.begin(replace(found, for_one_login=False, digest=digest))
    except Mistake as mistake:
        return render_template("password.html", faults=on_page(mistake.sentences)), 400
    flash(gettext("You have a new password. Where else you were logged in you aren't any more."), "done")
    return redirect(url_for("start.page"))
