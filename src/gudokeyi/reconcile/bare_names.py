"""Names without the titles before them, the letters of tests and the remarks behind them: `Multi Ch Bar JW` and
`Bar (Imp)` are `Bar`."""
from __future__ import annotations

import re
from collections.abc import Sequence

from gudokeyi.domain.spelling import folded_all

# stands in no name
BETWEEN = "\0"
REMARK = re.compile(r"[ ]*[(\[][^)\]\0]*[)\]]")
# titles, and what stands before them for a country or a kind
BEFORE = (
    "Multi|Int|Intl|Inter|Ir|Irish|Am|Can|Aust|Aus|NZ|GB|UK|Eng|Fr|Ger|Ned|Bel|Lux|Ital|It|Esp|Nord|Nor|Swe|Dan|Dk|Fin|"
    "Sh|FT|Fld|Jun|Grand|Gr|VDH|Klub|Club"
)
TITLES = "Ch|Champ|Champion|GCh|OBCh|FTCh|ShCh|AgCh|WTCh|JCh|NUCH|SUCH|DKCH|FINCH|INTCH|SECH|NORDUCH|MultiCh"
AHEAD = re.compile(rf"(?<=\0)(?:(?:(?:{BEFORE}|{TITLES})\b\.?[ &/+]+)*(?:{TITLES})\b\.?[ &/+]+)", re.IGNORECASE)
# letters of awards and tests behind a name, which has small letters itself
LETTERS = re.compile(r"(?:[ ,]+(?:[A-Z]{2,4}\d?|[A-Z][a-z]?[A-Za-z]{0,2}[A-Z][a-z]?\d?))+(?=\0)")


def bare_all(names: Sequence[str]) -> list[str]:
    """The letters and digits of what stays of each name; all are looked at as one text."""
    together = BETWEEN + BETWEEN.join(names) + BETWEEN
    without = AHEAD.sub("", REMARK.sub("", together))
    capitals = without[1:-1].split(BETWEEN)
    bare = LETTERS.sub("", without)[1:-1].split(BETWEEN)
    if not len(names) == len(capitals) == len(bare):
        return [one for name in names for one in bare_all([name.replace(BETWEEN, " ")])]
    return folded_all([whole if whole.isupper() else one for whole, one in zip(capitals, bare)])
