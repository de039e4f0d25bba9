"""The history of a book as a terminal has it: its changes, and what each did, animal by animal."""
from __future__ import annotations

from collections.abc import Iterator

from gudokeyi.domain.cells import in_a_line
from gudokeyi.domain.changes import Change
from gudokeyi.domain.messages import counted
from gudokeyi.domain.wording import ENGLISH
from gudokeyi.render.change_messages import message_of
from gudokeyi.services.facts import Fact, Facts
from gudokeyi.services.history import (
    AnimalChange,
    animals_changed,
    edition_after,
    entries_of,
    history_of,
    taken_back_by,
)
from gudokeyi.store.book import Book


def heading(change: Change) -> str:
    """A change in a line: its number and time, who made it, what it did, and how much of each it told."""
    text, named = message_of(change)
    what = text.format(in_a_line(str(named)))
    counts = ", ".join(f"{count} {what}" for what, count in change.counts.items() if count)
    time = change.time.astimezone().strftime("%Y-%m-%d %H:%M:%S")
    return f"{change.number}  {time}  {change.login}: {what}" + (f" ({counts})" if counts else "")


def details(book: Book, change: Change) -> Iterator[str]:
    """What is kept of a change, what it changed of each animal, and what it told."""
    yield heading(change)
    if by := taken_back_by(book, change.number):
        yield f"it was taken back by change {by}"
    if change.source:
        yield f"file: {in_a_line(change.source.path)}, SHA-256 {change.source.digest}"
    if change.options:
        yield in_a_line(f"options: {' '.join(f'{one.option} {one.word}'.strip() for one in change.options)}")
    _, predecessor, keeps = edition_after(book, change)
    kept = f", which keeps {counted(keeps, 'command')} of edition {predecessor}" if predecessor else ""
    yield f"journal: {counted(change.length, 'command')} of edition {change.edition}{kept}"
    count, changed = animals_changed(book, change.number)
    yield f"animals changed: {count}"
    yield from (f"  {one.id}: {difference(one)}" for one in changed)
    if entries := entries_of(book, change.number):
        yield "told:"
        yield from (f"  {entry.sentence()}" for entry in entries)


def difference(one: AnimalChange) -> str:
    """What a change did of an animal."""
    if one.after is None:
        return "isn't in the book any more"
    others = [f"{said.title or 'note'} {in_a_line(said.after) or 'none'}" for said in one.others]
    if one.before is None:
        # its number says its sex
        said = ((fact, value_said(one.after, fact)) for fact in one.changed() if fact is not Fact.SEX)
        return "new: " + "; ".join([*(f"{fact} {value}" for fact, value in said if value), *others])
    before, after = one.before, one.after
    others = [f"{told}, before {in_a_line(said.before) or 'none'}" for told, said in zip(others, one.others)]
    facts = [
        f"{fact} {value_said(after, fact) or 'none'}, before {value_said(before, fact) or 'none'}"
        for fact in one.changed()
    ]
    return "; ".join(facts + others)


def value_said(facts: Facts, fact: Fact) -> str:
    return str(ENGLISH.shown(fact, facts[fact]))


def told_of_animal(book: Book, id: str) -> Iterator[str]:
    """Each change that changed the animal or told of it, with what it did and told."""
    for change, did, entries in history_of(book, id):
        yield heading(change)
        if did:
            yield f"  {difference(did)}"
        for entry in entries:
            said = entry.why if entry.part else f"{entry.what}: {entry.why}"
            yield f"  {f'line {entry.line}: ' if entry.line else ''}{said}"
