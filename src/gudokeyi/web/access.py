"""Who asks, what each may do, and what each request is looked at for before it is answered; for one person the secret
link that the terminal shows."""
from __future__ import annotations

import base64
import contextlib
import hashlib
import hmac
import re
import time
from collections.abc import Collection
from dataclasses import dataclass
from typing import Protocol
from urllib.parse import unquote, urlsplit

from flask import Blueprint, Flask, Request, abort, current_app, g, redirect, request, session, url_for
from flask.typing import ResponseReturnValue
from flask.wrappers import Response
from flask_wtf.csrf import CSRFProtect
from werkzeug.exceptions import HTTPException
from werkzeug.wrappers import Response as AnyResponse

from gudokeyi.domain.people import WORKER, AccountRole, Person
from gudokeyi.domain.waiting import SECONDS_OF_PAGE, UNTIL
from gudokeyi.services.imports import MOST_BACKUP_BYTES, MOST_BYTES
from gudokeyi.services.seals import MOST_BYTES as MOST_CERTIFICATE_BYTES
from gudokeyi.services.settings import MOST_PICTURE_BYTES
from gudokeyi.web.addresses import is_safe_redirect
from gudokeyi.web.work_places import PagesOfPeople

# Who asks the desk, and what each may do at the book.


def the_name() -> str:
    """The name of who asks, empty for whom the system names."""
    person = the_person()
    return person.name if person else ""


def the_person() -> Person | None:
    """Who asks for the page that is answered; none where nobody knows."""
    person: Person | None = g.get("person")
    return person


# Who may ask for what: each page of the desk has a rule, and one without a rule is answered to nobody.

INSPECTOR, CLERK, KEEPER = AccountRole.INSPECTOR, AccountRole.CLERK, AccountRole.KEEPER
# what anybody may ask for: the doors, the styles of their pages and the language
OPEN_TO_ALL = ("door.enter", "login.page", "login.enter", "static", "start.icon", "start.language", "start.about")
# what whoever has a password that a keeper gave may ask for before it is changed
OF_OWN_PASSWORD = ("login.password", "login.change_password", "login.leave")
# where one logs in, and where somebody who is logged in is asked for the own password: each takes long to look at
LOG_IN = "login.enter"
LOOK_AT_OWN_PASSWORD = ("login.change_password", "accounts.add", "accounts.change", "accounts.remove")
# whoever may ask for the others has this role at least
LEAST = {
    "start.page": INSPECTOR, "animals.page": INSPECTOR, "animals.file": INSPECTOR, "animals.search": INSPECTOR,
    "years.page": INSPECTOR, "years.this_year": INSPECTOR, "years.file": INSPECTOR,
    "animal.page": INSPECTOR, "animal.certificate": INSPECTOR, "animal.certificates_of_many": INSPECTOR,
    "animal.pedigree": INSPECTOR, "animal.sealed": INSPECTOR, "matings.page": INSPECTOR, "matings.file": INSPECTOR,
    "matings.plan": INSPECTOR,
    "matings.plan_file": INSPECTOR, "breed.page": INSPECTOR, "history.page": INSPECTOR, "history.change": INSPECTOR,
    "history.report": INSPECTOR, "filing.answer": INSPECTOR, "settings.page": INSPECTOR,
    "seals.page": INSPECTOR, "seals.lines": INSPECTOR, "seals.check": INSPECTOR, "seals.publish": KEEPER,
    "sheet.page": CLERK, "sheet.drop": CLERK, "sheet.drop_example": CLERK, "sheet.look": CLERK, "sheet.choose": CLERK,
    "sheet.keep": CLERK,
    "work.stop": INSPECTOR, "sheet.take_suggestion": CLERK, "sheet.take": CLERK, "sheet.taking": CLERK,
    "sheet.leave": CLERK,
    "history.backup": CLERK, "filing.page": CLERK, "filing.form": CLERK, "filing.file": CLERK,
    "correcting.form": CLERK, "correcting.correct": CLERK, "notes.form": CLERK, "notes.write": CLERK,
    "owners.page": INSPECTOR, "owners.file": CLERK, "owners.form": CLERK, "owners.write": CLERK, "owners.merge": KEEPER,
    "owners.ask_erase": KEEPER, "owners.erase": KEEPER,
    "own_columns.page": INSPECTOR, "own_columns.change": KEEPER, "own_columns.form": CLERK, "own_columns.write": CLERK,
    "litters.form": CLERK, "litters.file": CLERK,
    "history.ask_undo": KEEPER, "history.bring_back": KEEPER, "settings.change": KEEPER,
    "settings.picture": INSPECTOR, "settings.change_picture": KEEPER,
    "history.ask_take_back": KEEPER, "history.take_it_back": KEEPER,
    "restoring.page": KEEPER, "restoring.drop": KEEPER, "restoring.look": KEEPER, "restoring.bring_back": KEEPER,
    "restoring.under_way": KEEPER,
    "login.leave": INSPECTOR, "login.password": INSPECTOR, "login.change_password": INSPECTOR,
    "folder.page": KEEPER, "folder.choose": KEEPER, "folder.close": KEEPER,
    "accounts.page": KEEPER, "accounts.add": KEEPER, "accounts.change": KEEPER, "accounts.ask_removal": KEEPER,
    "accounts.remove": KEEPER,
}  # fmt: skip


def may(endpoint: str) -> bool:
    """May whoever asks now ask for this?"""
    person, least = the_person(), LEAST.get(endpoint)
    is_there = endpoint in current_app.view_functions
    return is_there and person is not None and least is not None and person.role.may(least)


# what does something by being read: a copy that was loaded counts as a backup
ACTS_BY_READING = ("history.backup",)


def way_back(to: str, also: Collection[str] = ()) -> str:
    """Where a page leads back to: the page of this server at the address `to`, if it is one that is only read, and that
    somebody who is known may ask for or that is named; else the start page."""
    if is_safe_redirect(to):
        with contextlib.suppress(HTTPException, ValueError):
            endpoint, _ = current_app.url_map.bind("localhost").match(unquote(urlsplit(to).path), "GET")
            if endpoint in also or (endpoint in LEAST and endpoint not in ACTS_BY_READING):
                return to
    return url_for("start.page")


# The styles within a page that is printed, by their digests: so a browser takes these and no others.

WITHIN = re.compile(rb"<style>(.*?)</style>", re.DOTALL)
# an answer says so of itself where it has styles
PRINTED = "X-Printed"


def printed(text: str, mimetype: str) -> Response:
    """A page or picture as the words of the command line write it."""
    response = Response(text, mimetype=mimetype)
    response.headers[PRINTED] = "1"
    return response


def digests_of(response: Response) -> list[str]:
    if not response.headers.pop(PRINTED, ""):
        return []
    styles = sorted(set(WITHIN.findall(response.get_data())))
    return [f"sha256-{base64.b64encode(hashlib.sha256(style).digest()).decode()}" for style in styles]


# How large what a browser sends may be: its body by the page to which it is sent, and of a form the number and the
# length of its fields. A body is looked at before anything of it is parsed, and a file's only where one may be dropped.

# a form's bytes and fields, and the letters of a field and of its name
MOST_FORM_BYTES, MOST_FIELDS, MOST_LETTERS, MOST_IN_NAME = 64 << 10, 200, 10_000, 200
# a file comes in a form, which has something beside it: so many parts, and of these so much in memory
MOST_PARTS, MOST_BESIDE, MOST_IN_MEMORY = 20, 100_000, 512 << 10
# the pages that take files, each with the bytes that a file of its kind has at most
FILES = {
    "sheet.drop": MOST_BYTES, "restoring.drop": MOST_BACKUP_BYTES, "seals.check": MOST_CERTIFICATE_BYTES,
    "settings.change_picture": MOST_PICTURE_BYTES,
}  # fmt: skip
# the bytes and the fields of an address behind its question mark
MOST_QUERY_BYTES, MOST_QUERY_FIELDS = 4 << 10, 50


def most_of_file(endpoint: str) -> int:
    """The bytes that a file may have which whoever asks drops at a page; 0 where they may drop none."""
    return FILES.get(endpoint, 0) if may(endpoint) else 0


class BoundedRequest(Request):
    """A request of which no more is parsed than its page takes."""

    @property
    def most_of_file(self) -> int:
        """The bytes that a file may have which is dropped here; 0 where none may be."""
        return most_of_file(self.endpoint or "")

    @property
    def max_content_length(self) -> int:  # type: ignore[override]
        return self.most_of_file + MOST_BESIDE if self.most_of_file else MOST_FORM_BYTES

    @property
    def max_form_memory_size(self) -> int:  # type: ignore[override]
        return MOST_IN_MEMORY if self.most_of_file else MOST_FORM_BYTES

    @property
    def max_form_parts(self) -> int:  # type: ignore[override]
        return MOST_PARTS if self.most_of_file else MOST_FIELDS


def look_at_query() -> None:
    """Refuses an address that asks for too much, before anything of that is parsed."""
    query = request.query_string
    if len(query) > MOST_QUERY_BYTES or query.count(b"&") >= MOST_QUERY_FIELDS:
        abort(414)


def look_at_body() -> None:
    """Refuses a body that is too large for its page, and a form with too many fields, or too long ones."""
    most = request.max_content_length
    if most is not None and (request.content_length or 0) > most:
        abort(413)
    fields = list(request.form.items(multi=True))
    if len(fields) > MOST_FIELDS or any(len(name) > MOST_IN_NAME or len(text) > MOST_LETTERS for name, text in fields):
        abort(413)


# What each request is looked at for before it is answered: whether this server is meant, who asks, and whether that is
# allowed. Nothing is changed by a page of another site.

READS = ("GET", "HEAD", "OPTIONS")
# what a request's connection says of it: the moment until which it waits for others; that at which it came, with how
# many seconds a login's network had to wait then, and as what it was refused where very many wait
WAITS_UNTIL, ARRIVED = "gudokeyi.until", "gudokeyi.arrived"
WAIT_AS_IT_CAME, REFUSED_AS_IT_CAME = "gudokeyi.wait", "gudokeyi.refused"
# the pages that several people read at once
PAGES = "pages"
POLICY = (
    "default-src 'none'; script-src 'self'; style-src 'self'{}; img-src 'self'; connect-src 'self'; "
    "form-action 'self'; base-uri 'none'; frame-ancestors 'none'"
)
HEADERS = {
    "X-Content-Type-Options": "nosniff",
    "X-Frame-Options": "DENY",
    "Referrer-Policy": "same-origin",
    "Cross-Origin-Opener-Policy": "same-origin",
    "Cross-Origin-Resource-Policy": "same-origin",
    "Permissions-Policy": "camera=(), geolocation=(), microphone=()",
}

tokens = CSRFProtect()


class Logins(Protocol):
    """Who gets in."""

    def set_up(self, app: Flask) -> None:
        """Has the app the cookies and the pages that a way in needs."""

    def origin(self) -> str:
        """As which this server is asked by its own pages; another name than its own is refused."""

    def person(self) -> Person | None:
        """Who asks, if that is known."""

    def network(self) -> str:
        """From where somebody asks, as far as the head of a request says it; who sits there counts as one."""

    def wait_of(self, network: str) -> int:
        """So many seconds a network has to wait before another password is looked at."""

    def stranger(self) -> ResponseReturnValue:
        """What is answered to somebody who isn't known."""

    def not_allowed(self) -> str:
        """Why somebody who is known isn't answered, as `REFUSED` in `web/mistakes.py` has it."""


def guard(app: Flask, logins: Logins) -> None:
    """Has each request of an app looked at before it is answered, and each answer tell browsers what they may do."""
    app.config.update(
        SESSION_COOKIE_HTTPONLY=True,
        SESSION_COOKIE_SAMESITE="Strict",
        # a form that was left open over night is still taken
        WTF_CSRF_TIME_LIMIT=None,
        # the origin is looked at here
        WTF_CSRF_SSL_STRICT=False,
    )
    app.extensions["logins"] = logins
    app.extensions[PAGES] = PagesOfPeople()
    logins.set_up(app)
    app.before_request(look_at_request)
    app.teardown_request(wait_no_more)
    tokens.init_app(app)
    app.after_request(with_headers)


def wait_no_more(_: BaseException | None) -> None:
    UNTIL.set(None)
    if "reads" in g:
        current_app.extensions[PAGES].end(g.reads)


def look_at_request() -> ResponseReturnValue | None:
    logins = the_logins()
    WORKER.set("")
    UNTIL.set(request.environ.get(WAITS_UNTIL, time.monotonic() + SECONDS_OF_PAGE))
    origin = logins.origin()
    look_at_query()
    if request.method not in READS and is_of_another_site(origin):
        abort(403, "other site")
    g.person = person = logins.person()
    WORKER.set(person.name if person else "")
    if request.endpoint in OPEN_TO_ALL:
        look_at_body()
        return None
    if person is None:
        return logins.stranger()
    # a page that isn't there is told as such
    if request.endpoint and not may(request.endpoint):
        abort(403, logins.not_allowed())
    look_at_body()
    if person.name and request.method in READS:
        current_app.extensions[PAGES].begin(person.name)
        g.reads = person.name
    # what somebody else knows is no password
    if person.for_one_login and request.endpoint not in OF_OWN_PASSWORD:
        return redirect(url_for("login.password"))
    return None


def is_of_another_site(origin: str) -> bool:
    given = request.headers.get("Origin")
    return (given is not None and given != origin) or (
        request.headers.get("Sec-Fetch-Site", "same-origin") not in ("same-origin", "none")
    )


def the_logins() -> Logins:
    logins: Logins = current_app.extensions["logins"]
    return logins


def with_headers(response: Response) -> Response:
    for name, value in HEADERS.items():
        response.headers[name] = value
    # pages that are printed have their styles with them, and only these are allowed
    response.headers["Content-Security-Policy"] = POLICY.format("".join(f" '{one}'" for one in digests_of(response)))
    if request.endpoint != "static":
        response.headers["Cache-Control"] = "no-store"
    return response


# The way in of a desk that one person opened: the secret link that the terminal shows.

# what marks a browser that came by the link
ENTERED = "entered"

door = Blueprint("door", __name__)


@dataclass(frozen=True)
class LinkLogins:
    """The secret of the link, the port at which the server is asked, and what whoever has the link may do."""

    secret: str
    port: int
    read_only: bool = False

    def set_up(self, app: Flask) -> None:
        # cookies are the same for all ports
        app.config.update(SECRET_KEY=self.secret, SESSION_COOKIE_NAME=f"desk-{self.port}")
        app.register_blueprint(door)

    def origin(self) -> str:
        host = request.headers.get("Host", "")
        if host not in (f"127.0.0.1:{self.port}", f"localhost:{self.port}"):
            abort(400, "host")
        return f"http://{host}"

    def person(self) -> Person | None:
        if not session.get(ENTERED):
            return None
        return Person("", AccountRole.INSPECTOR if self.read_only else AccountRole.KEEPER)

    def network(self) -> str:
        return request.remote_addr or ""

    def wait_of(self, network: str) -> int:
        return 0

    def stranger(self) -> ResponseReturnValue:
        abort(403, "enter")

    def not_allowed(self) -> str:
        return "read only"


@door.get("/enter/<secret>")
def enter(secret: str) -> AnyResponse:
    """The link that the terminal shows; it may be opened again."""
    logins = the_logins()
    assert isinstance(logins, LinkLogins)
    if not hmac.compare_digest(secret.encode(), logins.secret.encode()):
        abort(403, "enter")
    session[ENTERED] = True
    return redirect(url_for("start.page"))
