"""What a society keeps of an owner beside the name."""
from __future__ import annotations

from dataclasses import dataclass

# so many letters each of them has
MOST_IN_MEMBER = 500


@dataclass(frozen=True, slots=True)
class Member:
    """An owner by the herd's code. What isn't known is empty; the address has lines."""

    owner_code: int
    name: str
    number: str = ""
    address: str = ""
    mail: str = ""
    telephone: str = ""

    @property
    def is_known(self) -> bool:
        """Is anything kept beside the name?"""
        return any((self.number, self.address, self.mail, self.telephone))
