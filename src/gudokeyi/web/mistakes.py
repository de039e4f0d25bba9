"""How pages show mistakes, requests that aren't answered, and faults of the desk itself."""
from __future__ import annotations

import errno
import pathlib
import traceback
import urllib.parse

from flask import Flask, current_app, g, redirect, render_template, request
from flask.typing import ResponseReturnValue
from flask_wtf.csrf import CSRFError
from werkzeug.exceptions import HTTPException, RequestEntityTooLarge

from gudokeyi.domain.cells import for_terminals
from gudokeyi.domain.messages import Mistake
from gudokeyi.domain.requests import WebFault
from gudokeyi.render.page_wording import MessageView
from gudokeyi.services.book_session import BookMoved
from gudokeyi.services.opening import busy
from gudokeyi.web.access import FILES, READS
from gudokeyi.web.language import gettext, on_page

# why a request isn't answered, by the description with which it is aborted
REFUSED = {
    "host": "This server isn't asked by this name.",
    "enter": "Open the link that was shown when the desk was opened: it lets you in.",
    "other site": "This came from another site, and isn't done.",
    "read only": "This desk is only to be read: nothing is changed.",
    "form": "The form is too old: open the page anew, and send it again.",
    "upload": "This file isn't here any more: it was taken or left, or its hour is over. Drop it again.",
    "role": "Your role doesn't allow this: ask a keeper of the book.",
    "not by proxy": "This server is reached by its proxy alone.",
    "not secret": "This server is asked by https alone.",
}
OTHER = "This can't be answered."
# by its status, where it is aborted without one
REFUSED_BY_STATUS = {404: "There is no such page.", 414: "The address is too long: look for less."}
# more was sent than an address takes
TOO_LONG = "The form is too long: write less into it."
TOO_LARGE = {
    "sheet.drop": "The file is too large: 50 MB are read at most.",
    "restoring.drop": (
        "The backup is too large: 500 MB are read at most. "
        "Restore it on the server, as docs/SERVING.md says."
    ),
    "seals.check": "The file is too large: 67 MB of a certificate are read at most.",
    "settings.change_picture": "The picture has more than 1 MB: make it smaller.",
}
FAULT = "A fault of the desk itself: nothing is lost, and the window in which the desk was opened tells what it was."
# so often a page is made anew since the book is changed, and how its address counts that
MOST_TIMES, AGAIN = 5, "again"
# so many places of a fault are told
MOST_PLACES = 6


def show_mistakes(app: Flask) -> None:
    app.register_error_handler(Mistake, show_mistake)
    app.register_error_handler(HTTPException, show_refused)
    app.register_error_handler(BookMoved, look_anew)
    app.register_error_handler(OSError, show_full)
    app.register_error_handler(Exception, show_fault)


def show_mistake(mistake: Mistake) -> ResponseReturnValue:
    sentences = on_page(mistake.sentences)
    return render_template("mistake.html", title=gettext("A mistake"), sentences=sentences), 400


def look_anew(_: BookMoved) -> ResponseReturnValue:
    """The same page of the book as it is now; a sentence where somebody changes it again and again meanwhile."""
    given = request.args.to_dict(flat=False)
    times = len(given.pop(AGAIN, []))
    if request.method not in READS or times >= MOST_TIMES:
        return show_mistake(busy())
    return redirect(f"{request.path}?{urllib.parse.urlencode(given | {AGAIN: ['1'] * (times + 1)}, doseq=True)}")


def is_made_anew() -> bool:
    """Is a page asked for again since the book was changed while it was made?"""
    return AGAIN in request.args


def show_refused(error: HTTPException) -> ResponseReturnValue:
    """A request that isn't answered, with the reason in words."""
    why, text = reason_of(error)
    # for the log
    g.refused = f"refused {why}"
    title = gettext("Not found") if error.code == 404 else gettext("This wasn't done")
    return render_template("mistake.html", title=title, sentences=[MessageView(gettext(text))]), error.code or 500


def reason_of(error: HTTPException) -> tuple[str, str]:
    """Why a request isn't answered, as the log has it and as the page says it."""
    if isinstance(error, CSRFError):
        return "form", REFUSED["form"]
    if isinstance(error, RequestEntityTooLarge):
        endpoint = request.endpoint or ""
        return (f"size of {endpoint}", TOO_LARGE[endpoint]) if endpoint in FILES else ("size", TOO_LONG)
    if error.description in REFUSED:
        return error.description, REFUSED[error.description]
    return str(error.code), REFUSED_BY_STATUS.get(error.code or 0, OTHER)


def show_full(error: OSError) -> ResponseReturnValue:
    """A disk that is full, also the one for temporary files, in a sentence; else a fault."""
    if error.errno in (errno.ENOSPC, errno.EDQUOT):
        return show_mistake(Mistake(WebFault.NOT_KEPT.said(error=error.strerror)))
    return show_fault(error)


def show_fault(error: Exception) -> ResponseReturnValue:
    """A fault of the desk itself: the terminal has where it is, the page doesn't. What it says may be of somebody's
    form, and is told nowhere."""
    current_app.logger.error("%s at %s", type(error).__name__, for_terminals(places_of(error)))
    return render_template("mistake.html", title=gettext("A mistake"), sentences=[MessageView(gettext(FAULT))]), 500


def places_of(error: Exception) -> str:
    """Where a fault came to be, from the outermost place inwards."""
    frames = traceback.extract_tb(error.__traceback__)
    return ", ".join(f"{pathlib.Path(frame.filename).name}:{frame.lineno}" for frame in frames[-MOST_PLACES:])
