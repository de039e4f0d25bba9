"""The views of `book.sqlite` for whoever reads it without the front desk: their columns stay when tables change."""
from __future__ import annotations

from gudokeyi.domain.animals import NO_OWNER
from gudokeyi.domain.provenance import BirthSource

# An animal of the book as it is now, by the society's id; parents are ids, and an owner is written as now. `has_left`
# is 1 also where nobody knows the day.
ANIMALS = f"""
CREATE VIEW animals AS
WITH RECURSIVE written (herd, name, place) AS (
    SELECT herd, name, -1 FROM owner
    UNION ALL
    SELECT herd, remembered.meaning, remembered.place FROM written JOIN remembered
    ON what = 'owner' AND until IS NULL AND word = name AND remembered.place > written.place
), named AS (SELECT herd, name, max(place) FROM written GROUP BY herd)
SELECT
    animal.id, animal.number, animal.name, substr(animal.number, 7, 1) AS sex, animal.born,
    iif(animal.birth_source = '{BirthSource.GIVEN.value}', 0, 1) AS birth_is_inferred,
    sire.id AS sire, dam.id AS dam, animal.sire AS sire_number, animal.dam AS dam_number, animal.embryo,
    nullif(animal.herd, {NO_OWNER}) AS herd, named.name AS owner, animal.owned_since AS owner_since,
    animal.departed AS left_on, iif(animal.departed IS NULL AND animal.exit_text IS NULL, 0, 1) AS has_left,
    animal.exit_reason, animal.castrated, animal.standing, fraction, percent
FROM animal
LEFT JOIN animal AS sire ON sire.number = animal.sire AND sire.until IS NULL
LEFT JOIN animal AS dam ON dam.number = animal.dam AND dam.until IS NULL
LEFT JOIN named ON named.herd = animal.herd
LEFT JOIN coefficient ON coefficient.number = animal.number
WHERE animal.until IS NULL AND animal.born IS NOT NULL;
"""

# The journal as it is now: each command with its reply, the number of the refusal or 0. What an undo took back isn't in
# it.
COMMANDS = """
CREATE VIEW commands AS
WITH RECURSIVE part (edition, first, last, predecessor, keeps) AS (
    SELECT edition, keeps + 1, length, predecessor, min(keeps, length) FROM change JOIN edition USING (edition)
    WHERE change = (SELECT max(change) FROM change)
    UNION ALL
    SELECT edition.edition, edition.keeps + 1, part.keeps, edition.predecessor, min(edition.keeps, part.keeps)
    FROM part JOIN edition ON edition.edition = part.predecessor WHERE part.keeps > 0
)
SELECT
    command.place AS step, command.kind, command.animal AS number, command.day, command.sire, command.dam,
    command.giver AS from_herd, command.taker AS to_herd, command.embryo, command.refusal
FROM part JOIN command ON command.edition = part.edition AND command.place BETWEEN part.first AND part.last
ORDER BY command.place;
"""

# The coefficients of inbreeding that the program computed, in age order.
COEFFICIENTS = """
CREATE VIEW coefficients AS
SELECT animal.id, coefficient.number, fraction, percent FROM coefficient
JOIN animal ON animal.number = coefficient.number AND animal.until IS NULL ORDER BY coefficient.place;
"""

VIEWS = ANIMALS + COMMANDS + COEFFICIENTS
