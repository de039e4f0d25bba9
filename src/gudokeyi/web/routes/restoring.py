"""The pages on which a keeper restores a backup: a file is dropped, then it is seen what it has, and then it is put in
the place of the book, or left."""
from __future__ import annotations

from flask import Blueprint, abort, flash, redirect, render_template, request, url_for
from werkzeug.wrappers import Response

from gudokeyi.domain.changes import NO_MARK, Mark
from gudokeyi.domain.messages import Mistake
from gudokeyi.render.page_wording import MessageView
from gudokeyi.services.cache import mark_of
from gudokeyi.services.restoring import mark_now
from gudokeyi.web.access import the_name
from gudokeyi.web.backup_work import Backup, looked_into, restored, taken_away
from gudokeyi.web.files import Upload
from gudokeyi.web.forms import mark_text, sent_mark
from gudokeyi.web.language import gettext, ngettext, on_page
from gudokeyi.web.routes.sheet import is_taken
from gudokeyi.web.served_book import Answer, served_book
from gudokeyi.web.sheet_work import LOOKING, Imported
from gudokeyi.web.workers import TAKING, Job, Stage

page = Blueprint("restoring", __name__)
# the button that restores also behind what others file meanwhile
ANYWAY = "anyway"
MEANWHILE = (
    "{} change that came meanwhile is in the folder old of the book alone.",
    "{} changes that came meanwhile are in the folder old of the book alone.",
)


@page.get("/restore", endpoint="page")
def restoring() -> Answer:
    return render_template("restore.html", faults=[])


@page.post("/restore")
def drop() -> Answer:
    file = request.files.get("backup")
    if file is None or not file.filename:
        return render_template("restore.html", faults=[MessageView(gettext("Choose a file first."))]), 400
    return to_look(served_book().uploads.add(file, the_name()))


def to_look(upload: Upload) -> Response:
    return redirect(url_for("restoring.look", token=upload.token))


def upload_of(token: str) -> Upload:
    upload = served_book().uploads.of(token, the_name())
    if upload is None:
        abort(404, "upload")
    return upload


@page.get("/restore/<token>")
def look(token: str) -> Answer:
    upload, served = upload_of(token), served_book()
    job = served.jobs.of((LOOKING, token), looked_into, (upload.path,))
    if job.stage is Stage.DONE:
        assert isinstance(job.value, Backup)
        now, gone = state_of(job.value)
        return render_template(
            "backup.html", upload=upload, backup=job.value, is_there=now != NO_MARK, looked=mark_text(now), gone=gone,
            was_changed=upload.looks,
        )  # fmt: skip
    return not_done(job)


def state_of(backup: Backup) -> tuple[Mark, int]:
    """The mark of the book that is there, and how many of its changes a backup takes away; of a damaged one nobody
    knows that."""
    served = served_book()
    try:
        with served.opened() as book:
            return (mark_of(book), taken_away(book, backup)) if book else (NO_MARK, 0)
    except Mistake:
        return mark_now(served.folder) or NO_MARK, 0


def not_done(job: Job) -> Answer:
    """A page that asks again by itself, or why it came to nothing."""
    if job.stage is Stage.UNDER_WAY:
        return render_template("waiting.html", title=gettext("The backup is looked at"), job=job)
    served = served_book()
    served.jobs.forget(job.key)
    return render_template("restore.html", faults=on_page(job.failed.sentences)), 400


@page.post("/restore/<token>")
def bring_back(token: str) -> Answer:
    """Restores it, if the book is the one that was looked at, or also with what others file until then where that is
    wished; who files meanwhile waits. The session sees by itself that the book is another one."""
    upload, served = upload_of(token), served_book()
    values = (served.folder, upload.path, sent_mark(), ANYWAY in request.form)
    served.jobs.in_turn((TAKING, token), restored, values, lambda value: is_taken(served, value))
    return redirect(url_for("restoring.under_way", token=token))


@page.get("/restore/<token>/under-way")
def under_way(token: str) -> Answer:
    """Waits for the end of a restoring."""
    upload, served = upload_of(token), served_book()
    job = served.jobs.found((TAKING, token))
    if job is None:
        return to_look(upload)
    if job.stage is not Stage.DONE:
        return not_done(job)
    served.jobs.forget(job.key)
    assert isinstance(job.value, Imported)
    if job.value.book_changed:
        upload.look_anew()
        flash(gettext("Somebody changed the book meanwhile. This is what is there now."), "look")
        return to_look(upload)
    served.uploads.drop(token)
    flash(gettext("The backup {} is restored.", upload.path.name), "done")
    if job.value.meanwhile:
        flash(ngettext(*MEANWHILE, job.value.meanwhile), "look")
    return redirect(url_for("history.change", number=job.value.change))
