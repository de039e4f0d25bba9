"""What the society knows of an animal, beside what the register has of it."""
from __future__ import annotations

from typing import NamedTuple

from gudokeyi.domain.kinds import Field, Standing
from gudokeyi.domain.provenance import GIVEN_BIRTH, GIVEN_EXIT, BirthBasis, ExitBasis, OwnerDay, SexSource

# so many letters of a number are those of breed, country and sex
LETTERS = 7
# no field was changed by hand
NO_FIELDS: frozenset[Field] = frozenset()


class SocietyRecord(NamedTuple):
    """What an animal's number stands for, and what was inferred of it."""

    registration_number: str
    id: str
    name: str = ""
    standing: Standing = Standing.ROW
    birth: BirthBasis = GIVEN_BIRTH
    exit: ExitBasis = GIVEN_EXIT
    sex: SexSource = SexSource.GIVEN
    # a male that can't be a sire any more
    castrated: bool = False
    # what the sheet writes of a parent that was left out, or that is written by its name
    written_sire: str = ""
    written_dam: str = ""
    # what was filed by hand since the last sheet
    by_hand: frozenset[Field] = NO_FIELDS
    owner_day: OwnerDay = OwnerDay.GIVEN
    # one of `ExitReason`, empty where nobody said why it left
    exit_reason: str = ""

    @property
    def is_male(self) -> bool:
        return self.registration_number[6] == "M"

    @property
    def digits(self) -> str:
        """What stays of its number, whatever its sex, breed and country become: by it the animal is known."""
        return self.registration_number[LETTERS:]

    def written(self, role: str) -> str:
        """What the sheet writes of its `sire` or `dam`, where that isn't the parent's id."""
        return self.written_sire if role == "sire" else self.written_dam


# the herd of animals whose owner isn't known
NO_OWNER = 99_999_999
