"""The families of words, in the order in which help shows them: a module for each, with `add_words`.

A module is imported where a word of its own is called, or where all words are shown: so a call doesn't wait for what
other words need."""
from __future__ import annotations

import importlib
from collections.abc import Sequence

from gudokeyi.cli.parser import CommandWords
from gudokeyi.domain.messages import CALLED

# the words that each module adds
FAMILIES = {
    "browser": ("open",),
    "serving": ("serve", "account"),
    "imports": ("import",),
    "filing": ("birth", "litter", "parents", "transfer", "exit"),
    "correcting": ("correct",),
    "keeping": ("note", "own", "owner"),
    "batches": ("file",),
    "questions": ("show", "find", "kinship", "export"),
    "lists": ("list", "year"),
    "matings": ("mating",),
    "pages": ("certificate", "pedigree", "trend"),
    "seals": ("seal", "sealed", "check"),
    "breed": ("breed", "plan"),
    "pedigrees": ("inbreeding", "relationships", "measures", "audit"),
    "matrices": ("inverse",),
    "book": ("history", "undo", "settings", "verify", "backup", "restore"),
}


def words_for(call: Sequence[str], called: str = CALLED) -> CommandWords:
    """The words of the family that has the called one; all of them where no family has it, as for help. `called` is how
    their help names the front desk."""
    families = [family for family, names in FAMILIES.items() if call and call[0] in names]
    words = CommandWords(called)
    for family in families or FAMILIES:
        importlib.import_module(f"{__name__}.{family}").add_words(words)
    return words
