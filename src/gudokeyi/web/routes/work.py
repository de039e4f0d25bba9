"""Stops work that goes on beside the server, for whoever asked for it."""
from __future__ import annotations

from flask import Blueprint, abort, flash, redirect, url_for

from gudokeyi.domain.requests import WebFault
from gudokeyi.web.access import the_name
from gudokeyi.web.language import gettext
from gudokeyi.web.served_book import Answer, served_book

page = Blueprint("work", __name__)


@page.post("/jobs/<token>/stop")
def stop(token: str) -> Answer:
    """What is over by now, or is somebody else's, isn't stopped."""
    jobs = served_book().jobs
    job = jobs.by_id(token)
    if job is None or job.person != the_name():
        abort(404)
    jobs.stop(job, WebFault.WORK_STOPPED.said())
    flash(gettext("It is stopped, and nothing is changed."), "done")
    return redirect(url_for("start.page"))
