"""The page on which a sheet is taken: a file is dropped, then it is seen how it is read and what it would change, and
then it is taken or left. Nothing is written before that."""
from __future__ import annotations

from collections.abc import Collection, Mapping

from flask import Blueprint, abort, flash, redirect, render_template, request, url_for
from werkzeug.datastructures import FileStorage
from werkzeug.wrappers import Response

from gudokeyi.domain.changes import NO_MARK, Option
from gudokeyi.domain.findings import COLUMNS, DROP_GONE, OWN, Entry, What
from gudokeyi.domain.kinds import Field
from gudokeyi.domain.own_columns import OwnKind
from gudokeyi.render.page_wording import MessageView, sentence_in, sentence_of, sentence_of_entry
from gudokeyi.services.opening import Book
from gudokeyi.services.sheet_previews import MOST_OTHERS
from gudokeyi.web.access import the_name
from gudokeyi.web.changing import go_on
from gudokeyi.web.files import EXAMPLE, Upload
from gudokeyi.web.forms import SHEET_FIELDS, cleaned, made_by, mark_text, sent_form, sent_mark, wrong_fields
from gudokeyi.web.language import gettext, ngettext, on_page, page_language, without_paths
from gudokeyi.web.served_book import Answer, ServedBook, served_book
from gudokeyi.web.sheet_work import LOOKING, Asked, Chosen, Imported, Look, Seen, imported, looked_at, seen_of
from gudokeyi.web.views.findings import (
    Proposed, choose as choose_suggested, field_of, groups_of, kind_kept, kinds_of, labels_of, proposed, suggestions_of,
)  # fmt: skip
from gudokeyi.web.views.own_columns import kinds
from gudokeyi.web.workers import TAKING, Job, Key, Stage

page = Blueprint("sheet", __name__)
MOST_LETTERS = 500
# the options by which it is said with what numbers begin
LETTERS = ("breed", "country")
# the place of a look's page at which they stand
FINDINGS = "findings"
BOOK_CHANGED = "Somebody changed the book meanwhile. This is what is there now."
CHANGED_BY_OTHERS = (
    "Somebody changed {} animal meanwhile that the sheet changes too. Look at what it would change of that one now: all "
    "else is as you saw it.",
    "Somebody changed {} animals meanwhile that the sheet changes too. Look at what it would change of these now: all "
    "else is as you saw it.",
)
READ_OTHERWISE = (
    "The settings, or what was chosen for this sheet, changed meanwhile. This is what it would change now."
)


@page.get("/sheet", endpoint="page")
def sheet() -> Answer:
    return render_template("sheet.html")


@page.post("/sheet")
def drop() -> Answer:
    file = request.files.get("sheet")
    if file is None or not file.filename:
        return render_template("sheet.html", faults=[gettext("Choose a file first.")]), 400
    return to_look(served_book().uploads.add(file, the_name()))


@page.post("/sheet/example")
def drop_example() -> Answer:
    """The example's sheet, to play with."""
    if not EXAMPLE.exists():
        abort(404)
    with open(EXAMPLE, "rb") as file:
        return to_look(served_book().uploads.add(FileStorage(file, EXAMPLE.name), the_name()))


def to_look(upload: Upload) -> Response:
    return redirect(url_for("sheet.look", token=upload.token))


def upload_of(token: str) -> Upload:
    """A page that isn't there where a file's hour is over, or it is taken or left."""
    upload = served_book().uploads.of(token, the_name())
    if upload is None:
        abort(404, "upload")
    return upload


def wrong_in(upload: Upload) -> dict[str, str]:
    """What was chosen and can't be read so, each field with why."""
    with served_book().opened() as book:
        return wrong_fields(upload.options, book or Book(served_book().folder, None))


def job_of(upload: Upload, wrong: Collection[str]) -> Job:
    """The look at a file, which is of the book as it was when it began, without the fields that can't be read."""
    served, chosen = served_book(), Chosen.of(upload.columns, upload.options, wrong, upload.others)
    key = key_of(upload, chosen)
    served.jobs.stop_others(key)
    return served.jobs.of(key, looked_at, (served.folder, upload.path, chosen, upload.again))


def key_of(upload: Upload, chosen: Chosen) -> Key:
    with served_book().opened() as book:
        seen = seen_of(book or Book(served_book().folder, None), chosen)
    return (LOOKING, upload.token, seen.reading, upload.looks)


def shown_at(upload: Upload, chosen: Chosen, looked: Seen) -> Mapping[str, bytes] | None:
    """What the look showed of each animal; none where it isn't that one any more."""
    job = served_book().jobs.found(key_of(upload, chosen))
    return job.value.by_animal if job and isinstance(job.value, Look) and job.value.seen == looked else None


@page.get("/sheet/<token>")
def look(token: str) -> Answer:
    upload = upload_of(token)
    wrong = wrong_in(upload)
    job = job_of(upload, wrong)
    if job.stage is Stage.UNDER_WAY:
        return waiting(gettext("The sheet is looked at"), job)
    if job.stage is Stage.FAILED:
        served_book().jobs.forget(job.key)
        return render_template("look.html", upload=upload, look=None, faults=on_page(job.failed.sentences)), 400
    assert isinstance(job.value, Look)
    if request.args.get("at") == FINDINGS:
        # while it waits a page has no place: with one it wouldn't ask again
        return redirect(url_for("sheet.look", token=token, _anchor=FINDINGS))
    found = job.value
    words = page_language()
    sentences = [*told_of(found), *without_paths(sentence_of(one, words) for one in found.obstacles)]
    is_read = found.after is not None
    if upload.again:
        groups = groups_of(found.again, words)
    else:
        groups = groups_of(found.entries, words, found.totals, found.days)
    return render_template(
        "look.html", upload=upload, look=found, looked=mark_text(found.seen.mark), fields=list(Field),
        options=SHEET_FIELDS, given=upload.options, letters=LETTERS, own_kinds=kinds(page_language()),
        kept=kept_of(found),
        wrong={name: sentence_in(sentence, words) for name, sentence in wrong.items()},
        faults=[] if is_read else sentences, guards=sentences if is_read else [],
        groups=groups, summed_up=[] if upload.again else kinds_of(found.kinds, groups, words), has_choices=any(line.choices for group in groups for line in group.lines),
        remembered=[label for one in found.remembered for label in labels_of(one, words)],
        drop_gone=dropped_by(found) if not upload.again else None,
        solutions=proposed(suggestions_of(found.obstacles), words),
    )  # fmt: skip


def kept_of(look: Look) -> dict[str, str]:
    """What the other columns are kept as that are kept, by their titles."""
    called = dict(kinds(page_language()))
    return {title: called[kind] for title, kind in (look.columns.others if look.columns else ()) if kind in called}


def dropped_by(look: Look) -> Proposed | None:
    """What drops the animals that are gone, if any are and they stay."""
    if look.after is None or look.after.drops_gone or not look.totals.get(What.GONE):
        return None
    return Proposed(gettext("Drop these from the book, but for ancestors of others"), (DROP_GONE,))


def told_of(look: Look) -> list[MessageView]:
    """Why a sheet can't be read."""
    words = page_language()
    return without_paths(
        sentence_of_entry(one, words) if isinstance(one, Entry) else sentence_in(one, words) for one in look.told
    )


def waiting(title: str, job: Job) -> Answer:
    """A page that asks again by itself, until the work is done."""
    return render_template("waiting.html", title=title, job=job)


@page.post("/sheet/<token>/columns")
def choose(token: str) -> Answer:
    """Keeps what was chosen for the reading, and looks anew."""
    upload = upload_of(token)
    keep_chosen(upload)
    upload.look_anew()
    return to_look(upload)


@page.post("/sheet/<token>/keep")
def keep(token: str) -> Answer:
    """Keeps what was chosen when it is chosen: whoever takes the sheet without a new look isn't asked again."""
    keep_chosen(upload_of(token))
    return Response(status=204)


def keep_chosen(upload: Upload) -> None:
    """Keeps what a form has for the reading of a sheet."""
    given, columns = request.form, {**upload.columns}
    for name in Field:
        title = given.get(f"column-{name}")
        if title is not None and title != given.get(f"understood-{name}", ""):
            columns[name.value] = title[:MOST_LETTERS]
    upload.columns = columns
    upload.others = {title: kind for title, kind in others_chosen(given).items() if title not in columns.values()}
    read = {name: cleaned(name, given.get(name, "")[:MOST_LETTERS]) for name in SHEET_FIELDS}
    upload.options = {name: text for name, text in read.items() if text}


def others_chosen(given: Mapping[str, str]) -> dict[str, str]:
    """What other columns are kept as, by their titles."""
    titles = {at: given[name][:MOST_LETTERS] for at in range(MOST_OTHERS) if (name := f"other-title-{at}") in given}
    return {title: kind for at, title in titles.items() if (kind := given.get(f"other-kind-{at}", "")) in list(OwnKind)}


@page.post("/sheet/<token>/suggested")
def take_suggestion(token: str) -> Answer:
    """Chooses what a finding suggests, and looks anew, at the findings."""
    upload, given = upload_of(token), request.form
    options = [Option(name, word) for name, word in zip(given.getlist("option"), given.getlist("word"))]
    choose_suggested(upload, [*filter(is_of_page, options)])
    upload.look_anew()
    return redirect(url_for("sheet.look", token=upload.token, at=FINDINGS))


def is_of_page(option: Option) -> bool:
    """Can the page of a sheet choose it?"""
    if option.option == OWN:
        return kind_kept(option) in list(OwnKind)
    return option.option == COLUMNS or field_of(option) in SHEET_FIELDS


@page.post("/sheet/<token>/take")
def take(token: str) -> Answer:
    """Takes it, if it would change what was looked at. Of a form that took it before that is shown."""
    served, form, looked = served_book(), sent_form(), Seen(sent_mark(), request.form.get("reading", ""))
    to = url_for("sheet.taking", token=token, form=form)
    if not taken_by(form):
        upload = upload_of(token)
        if wrong_in(upload):
            return to_look(upload)
        chosen = Chosen.of(upload.columns, upload.options, others=upload.others)
        values = (served.folder, upload.path, chosen, Asked(looked, shown_at(upload, chosen, looked), form))
        job = served.jobs.of((TAKING, form), imported, values, lambda value: is_taken(served, value))
        job.address = to
    return redirect(to)


def is_taken(served: ServedBook, value: object) -> None:
    """What an import made is gone on with, before its page asks for it."""
    if isinstance(value, Imported) and value.mark != NO_MARK:
        # what others filed meanwhile is whole where this server saw that
        seen = {mark for mark in (value.behind, value.mark) if served.trusted[:1] == (mark,)}
        go_on(served, value.whole if value.behind == NO_MARK or seen else ())


def taken_by(form: str) -> int:
    """The change by which a form took its sheet, 0 where it didn't."""
    with served_book().opened() as book:
        change = made_by(book, form)
    return change.number if change else 0


@page.get("/sheet/<token>/taking/<form>")
def taking(token: str, form: str) -> Answer:
    """Waits for the end of an import, and goes to what it changed."""
    served = served_book()
    job = served.jobs.found((TAKING, form))
    if job and job.stage is Stage.UNDER_WAY:
        return waiting(gettext("The sheet is taken"), job)
    number = taken_by(form)
    if number:
        return to_taken(token, number)
    upload = upload_of(token)
    if job is None:
        return to_look(upload)
    served.jobs.forget(job.key)
    if job.stage is Stage.FAILED:
        return render_template("look.html", upload=upload, look=None, faults=on_page(job.failed.sentences)), 400
    assert isinstance(job.value, Imported)
    upload.look_anew(job.value.otherwise)
    if job.value.otherwise:
        flash(ngettext(*CHANGED_BY_OTHERS, len(job.value.otherwise)), "look")
    else:
        flash(gettext(READ_OTHERWISE if job.value.read_otherwise else BOOK_CHANGED), "look")
    return to_look(upload)


def to_taken(token: str, number: int) -> Response:
    """To what was changed; the file isn't needed any more."""
    uploads = served_book().uploads
    upload = uploads.of(token, the_name())
    if upload:
        uploads.drop(token)
        flash(gettext("{} is taken.", upload.path.name), "done")
    return redirect(url_for("history.change", number=number))


@page.post("/sheet/<token>/leave")
def leave(token: str) -> Answer:
    name = upload_of(token).path.name
    served_book().uploads.drop(token)
    flash(gettext("{} is left, and nothing is changed.", name), "done")
    return redirect(url_for("start.page"))
