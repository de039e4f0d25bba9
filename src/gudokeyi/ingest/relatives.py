"""What a text tells of others than its animal: of relatives, as `Vater tot` or `Tod der Mutter`, of young, as `erster
Wurf tot`, and of a part or a tag, as `lost tag`."""
from __future__ import annotations

import re
from collections.abc import Iterable

RELATIVES = (
    r"(?:(?:groß|gross|ur|leih|zwillings|wurf)-?)?(?:vater|mutter|bruder|schwester|eltern)(?:teil)?|"
    r"(?:wurf|zwillings)?geschwister|"
    r"(?:grand-?|foster |step|full |half |twin )?(?:sire|dam|father|mother|parent|brother|sister|sibling)s?|"
    r"(?:grand-?|demi-)?(?:pères?|mères?|frères?|sœurs?|soeurs?)"
)
# several young: they are never the animal itself, of which `Kalb` or `Zwilling` may be said
YOUNG = (
    r"wurf|würfe|litters?|litter-?mates?|portées?|lämmer|kitze|zicklein|kälber|welpen|ferkel|jungtiere|jungen|nachzucht|"
    r"nachkommen|lambs|kids|calves|foals|pups|puppies|piglets|kittens|offspring|progeny|agneaux|chevreaux|veaux|"
    r"poulains|chiots|porcelets|lapereaux|petits"
)
# one of them where it is counted, or said to be that of the animal
ONE_YOUNG = (
    r"(?:1|eine?s?|one|an?|une?|ihr|sein|her|his|its|son)\s+(?:lamm|kitz|kalb|fohlen|welpe|jungtier|junges|lamb|kid|calf|foal|pup|puppy|piglet|"
    r"kitten|agneau|chevreau|veau|poulain|chiot|porcelet|lapereau|petit)"
)
TWINS = r"twin|zwilling|jumeau|jumelle"
# a part of each of them: few texts have one
SOME_OTHER = re.compile(
    r"vater|mutter|eltern|bruder|schwester|geschwister|sire|dam|father|mother|parent|brother|sister|sibling|père|mère|"
    rf"frère|sœur|soeur|{YOUNG}|{ONE_YOUNG}|{TWINS}|lost|left",
    re.IGNORECASE,
)
# what may stand before one that isn't the object of a preposition, as in `mit Mutter verkauft`
BEFORE = r"(?:^|[,;:(/–—]|(?<!\d)\.|\b(?:und|and|et|aber|but|mais|da|weil|since|because|car)\b)\s*"
ARTICLES = (
    r"(?:(?:die|der|das|den|seine?|ihre?|beide|both|the|its|his|her|le|la|les|sa|son|ses|leur|deux|alle|all|tous|toutes|"
    r"erste[rs]?|zweite[rs]?|dritte[rs]?|letzte[rs]?|ganze[rs]?|first|second|third|last|whole|première|deuxième|dernière|"
    r"\d{1,2}\.?|\d{1,2}(?:st|nd|rd|th|e|ère|x)|zwei|drei|vier|two|three|four|trois|quatre)\s+)*"
)
# an id or a name of its own, but no word that says that it isn't known
CALLED = (
    r"(?:\s+(?!(?:unbekannt|unbek|unknown|inconnue?|nicht|not|non|pas|noch|lebt|alive|und|and|et)\b)"
    r"(?-i:[A-ZÀ-Þ\d])[\w./-]*)?"
)
AUXILIARIES = (
    r"(?:\s+(?:ist|war|wurde|wurden|sind|leider|auch|schon|bereits|bei|der|Geburt|alle|beide|is|was|were|are|has|have|"
    r"been|also|already|at|birth|all|both|est|sont|a|ont|été|aussi|déjà|tous|toutes))*"
)
# how many of the young left, as in `Wurf 8 St., 3 tot`
COUNT = r"(?<![\d./-])\b(?:\d{1,2}|eine?r?|zwei|drei|alle|one|two|three|all|une?|deux|trois|tous)\s+(?:davon\s+|of them\s+)?"
# what an animal lost but its life, or where it has something
LOST_PARTS = (
    r"\b(?:lost|left)\s+(?:(?:an?|one|two|its|his|her|the|both|left|right|ear|front|hind|eid)\s+)*"
    r"(?:tags?|ears?|horns?|eyes?|teats?|legs?|sides?|quarters?|udder|hip|foot|feet|hoof|calf|lamb|kid|foal|pup|litter|"
    r"twins?|pregnancy|weight|condition)\b"
)
NOUNS = "Tod|Verlust|Verkauf|Abgang|death|loss|sale|mort|décès|vente|perte"


def leaving_others(exits: Iterable[str]) -> re.Pattern[str]:
    """Finds what a text tells of others that left, by one of some words or a sign."""
    one = f"{ARTICLES}(?:{RELATIVES}|{YOUNG}|{ONE_YOUNG})"
    several = rf"{one}(?:\s*(?:und|and|et|[&+/,])\s*{one})*"
    left = rf"(?:(?:{'|'.join(map(re.escape, exits))})\b|[†✝]|\+(?=\s*\d|$))"
    forms = (
        rf"{BEFORE}{several}{CALLED}\s*:?{AUXILIARIES}\s*\(?{left}",
        rf"\b(?:{NOUNS})\s+(?:der|des|von|of|de|du)\s+{one}\b",
        # of a dam's young
        rf"\b(?:{YOUNG})\b[^;]{{0,40}}?{COUNT}{left}",
        # in a clause of their own, as in `twin to 0345, which died at birth`
        rf"\b(?:{RELATIVES}|{TWINS})\b[^;]{{0,40}}?,\s*(?:which|who|that|der|die|das|qui){AUXILIARIES}\s+{left}",
        LOST_PARTS,
    )
    return re.compile("|".join(forms), re.IGNORECASE)


def names_other(text: str) -> bool:
    """May it name one of them?"""
    return SOME_OTHER.search(text) is not None
