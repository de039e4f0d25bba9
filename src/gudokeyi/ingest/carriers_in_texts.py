"""Cells of dams that name who carried an embryo or brought up a young one, as `E002 recip E005` and `fostered by E005`:
she isn't the dam."""
from __future__ import annotations

import re
from dataclasses import dataclass

# what stands beside the name of such a one; these may be a part of a name too, as in `Nurse Betty`
MAY_BE_NAMES = r"foster|nurse|carrier|surrogate|amme|nourrice|porteuse"
OF_ANIMALS = r"[ -]?(?:mother|dam|cow|heifer|ewe|mare|doe|nanny|jenny|bitch|sow)"
CARRIER = re.compile(
    rf"\b(?:(?P<likely>(?:(?:{MAY_BE_NAMES})(?:{OF_ANIMALS})?))|recip(?:ient)?(?:{OF_ANIMALS})?|"
    r"(?:foster|nurs|carri|suckl|rear|rais)ed (?:by|on|onto|with)|leih(?:mutter|stute|kuh)\w*|ersatzmutter\w*|"
    r"(?:ammen|zieh|pflege|träger|aus(?:trage|tragungs))(?:mutter|tier|kuh|stute|schaf|ziege|aue|häsin)|trägerin|"
    r"rezipient(?:in)?|empf(?:änger\w*|(?=\.))|(?:aufgezogen|gesäugt|ausgetragen|untergelegt|großgezogen|grossgezogen) "
    r"(?:von|bei|durch|unter)|(?:mère )?re[cç]eveuse|mère (?:porteuse|adoptive|nourricière)|"
    r"(?:nourri|allaité|adopté|élevé|porté)e?s? par)\b\.?",
    re.IGNORECASE,
)  # fmt: skip
# what stands before the name of whom the embryo is
DONOR = re.compile(
    r"\b(?:(?:donor|genetic|biological|true)(?:[ -](?:dam|mother|cow|ewe|mare|doe))?|(?:eizell|embryo)?spender\w*|"
    r"(?:genetische|gen\.|biologische|leibliche) mutter|(?:mère )?donneuse|mère génétique|"
    r"(?:et|embryon?):? (?:aus|von|ex|of|from|out of|de))(?!\w)\.?",
    re.IGNORECASE,
)  # fmt: skip
# what stands between two animals, and at the ends of what is said of one
SEPARATORS, ENDS = ",;/", " ()[].,;:/=-–—"
# an id may have a slash within
BETWEEN = re.compile(r"[,;]| / ")


@dataclass(frozen=True, slots=True)
class Carried:
    """What a text has of the dam, empty where it has none, and of who carried or brought up the young one; whether the
    word for that may be a part of a name."""

    dam: str
    carrier: str
    may_be_name: bool


def carried(text: str) -> Carried | None:
    """The carrier is what follows the word for it, or else what stands before it."""
    found = CARRIER.search(text)
    if found is None:
        return None
    before, behind = text[: found.start()], text[found.end() :]
    donor = DONOR.search(behind)
    carrier, of_donor = (behind[: donor.start()], behind[donor.end() :]) if donor else (behind, "")
    if not carrier.strip(ENDS) or carrier.strip(" )].:")[:1] in (*SEPARATORS,):
        *others, carrier = BETWEEN.split(before.rstrip(ENDS))
        before = " ".join(others)
    dam = DONOR.sub(" ", f"{before} {of_donor}").strip(ENDS)
    return Carried(dam, carrier.strip(ENDS), found["likely"] is not None)
