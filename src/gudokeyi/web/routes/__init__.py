"""The pages of the desk: a module for each, with its blueprint `page`."""
from __future__ import annotations

from gudokeyi.web.routes import (
    animal, animals, breed, correcting, filing, history, litters, matings, notes, own_columns, owners, restoring, seals,
    settings, sheet, start, work, years,
)  # fmt: skip

PAGES = (
    start.page, animals.page, animal.page, sheet.page, filing.page, correcting.page, matings.page, breed.page,
    history.page, notes.page, own_columns.page, owners.page, restoring.page, settings.page, seals.page, work.page,
    litters.page, years.page,
)  # fmt: skip
