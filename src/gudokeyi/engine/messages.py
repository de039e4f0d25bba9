"""Why the program gives no answer."""
from __future__ import annotations

import enum

from gudokeyi.domain.messages import Message


@enum.unique
class ProgramFault(Message):
    """Why the program gives no answer."""

    NOT_THERE = "{path}, the program of the herd book, isn't there: {hint}"
    IS_FOLDER = "{path} is a folder, not the program of the herd book: {hint}"
    NOT_BUILT = (
        "the program herdbook isn't built, for the reason told above: mend that, or if you have it built, {hint}"
    )
    NOT_BUILT_HERE = (
        "the program herdbook isn't built of what is here: call {script} --version at a terminal, which proves and "
        "builds it, or if you have it built, {hint}"
    )
    NOT_FOUND = (
        "the program herdbook {version} is neither beside this package nor on the path: install the package gudokeyi, "
        "which has it, or {hint}"
    )
    CANT_RUN = "{path} can't be run ({error}): {hint}"
    OTHER = "{path} should answer '{wanted}' to --version, and answers '{told}': install the one that belongs to it, or {hint}"
    TOO_LONG = (
        "the program `herdbook {word}` was ended, since it wasn't done after {minutes} minutes: is {path} the right "
        "one, and has the machine nothing else to do? Nothing is changed"
    )
    CANT_DO = "the program `herdbook {word}` can't do it: {told}{hint}"
    REPLIES_LACK = "the program answered {replies} of {commands}: is {path} the right one?"
    SESSION_ENDS = "the program's session ended, also where it was begun anew: nothing is changed. Open the desk anew"
    SESSION_CANT_DO = "the program can't do it: {fault}"
    SESSION_CANT_FILE = "the program can't file it: {fault}. Nothing is changed"
    JOURNAL_CANT_BE_FILED = "the program can't file the stored journal: {fault}"
    REPLY_DIFFERS = "the program's reply to command {place} isn't the stored one: nothing goes on. Ask `verify`, and restore a backup"
