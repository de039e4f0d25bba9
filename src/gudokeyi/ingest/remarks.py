"""What cells of columns that nobody reads, as those of remarks, tell of animals: that they left, or are castrated."""
from __future__ import annotations

import re
from collections.abc import Collection, Iterable, Iterator

from gudokeyi.ingest.born_dead import YOUNG, without_young
from gudokeyi.ingest.days import MONTHS, compared, places_within
from gudokeyi.ingest.texts import listed, plain
from gudokeyi.ingest.exit_words import DEAD, PLAIN_EXITS, TELLING_EXITS, is_still_there
from gudokeyi.ingest.words import AROUND_EXITS, KNOWN_BORN_DEAD, KNOWN_CASTRATED, KNOWN_NEGATIONS, LETTER, has_word

# besides those that tell of an exit wherever they stand in a remark
KNOWN_PLAIN = PLAIN_EXITS | {
    plain(word) for word in listed(
        "eingeschl, euth, verend, notgetötet, notgeschlachtet, gekeult, Schlachtung, put to sleep, put down, abattage, "
        "réformé, réformée, décès, dcd, totgeboren, stillborn, still born, mort-né, mort-née, mortné, mortinato"
    )
}  # fmt: skip
# what tells of an exit wherever it stands, but beside a word for young or a parent: then these were lost
KNOWN_LOSSES = {
    plain(word) for word in listed(
        "Notschlachtung, gemerzt, ausgemerzt, abgestürzt, ertrunken, erschossen, umgestanden, krepiert, verschollen, "
        "umgekommen, Wolfsriss, Luchsriss, Hunderiss, Wolfsangriff, Wolfangriff, Wolf gerissen, Wölfen gerissen, Luchs "
        "gerissen, Hund gerissen, Hunden gerissen, Blitz erschlagen, Blitz getroffen, vermisst seit, predation, killed "
        "by, wolf attack, dog attack, wolf kill, struck by lightning, lightning strike, drowned, passed away, went "
        "missing, gone missing, missing since, presumed dead, prédation, attaque de loup, attaque de loups, attaque du "
        "loup, attaque de chien, attaque de chiens, attaque de lynx, tué par, tuée par, noyé, noyée, foudroyé, "
        "foudroyée, disparu depuis, disparue depuis, dérochée, dévoré, dévorée, égorgé, égorgée, überfahren, run over, "
        "disappeared, nicht mehr auffindbar, verschenkt an, gone to slaughter, gone to abattoir, parti à la boucherie, "
        "partie à la boucherie, parti à l'abattoir, partie à l'abattoir, parti chez, partie chez, "
        "nicht mehr im Bestand, nicht mehr vorhanden, nicht mehr da, nicht mehr in der Herde, lebt nicht mehr, "
        "no longer in flock, no longer in herd, no longer in the flock, no longer in the herd, no longer alive, "
        "no longer with us, plus dans le troupeau, plus au troupeau, plus en vie, est plus là"
    )
}  # fmt: skip
# what tells of one where nothing else stands but a day
LOSSES_ALONE = (
    "vermisst, unauffindbar, entlaufen, abgängig, Verendung, Merzung, Keulung, Diebstahl, Export, verschenkt, "
    "weggegeben, ins Ausland, euthanasia, theft, ran away, given away, disparu, disparue, crevé, crevée, cédé, cédée"
)
# where animals are slaughtered: these tell of it alone, or with a day
SLAUGHTERERS = (
    "Schlachter, Schlachterei, Schlachthof, Metzger, Metzgerei, Fleischer, Abdecker, TKV, Tierkörperverwertung, butcher, "
    "abattoir, knacker, knackers, knackery, factory, meat factory, meat works, boucher, boucherie, équarrisseur, équarrissage"
)
KNOWN_ALONE = TELLING_EXITS | KNOWN_BORN_DEAD
KNOWN_ALONE |= {plain(word) for word in [*listed(SLAUGHTERERS), *listed(LOSSES_ALONE)]}
# Elsewhere these are names, colours or tags: they tell of an exit in columns of remarks and of causes.
KNOWN_IN_REMARKS = {
    plain(word) for word in listed(
        "Wolf, Luchs, Bär, Blitz, Blitzschlag, Unfall, verloren, wolves, lynx, bear, lightning, accident, lost, "
        "missing, loup, ours, foudre, perdu, perdue, introuvable, parti, partie"
    )
}  # fmt: skip
OF_REMARKS = {
    plain(title) for title in listed(
        "Bemerkung, Bemerkungen, Bem, Anmerkung, Anmerkungen, Anm, Notiz, Notizen, Kommentar, Kommentare, Ursache, "
        "Grund, remark, remarks, note, notes, comment, comments, cause, reason, remarque, remarques, commentaire, "
        "commentaires, observation, observations, obs, motif, raison"
    )
}  # fmt: skip
# of these without a day one is a side, and the other may be an ear tag
WITH_DAY = {plain(word) for word in listed("left, lost")}
OF_BEASTS = "zum, zur, vom, beim, la, l, les, the, Wolf, Fuchs, Luchs, Hund"
AROUND = {plain(word) for word in [*listed(AROUND_EXITS), *listed(OF_BEASTS)]}
# a day or a month whose year has two digits
SHORT_DAY = re.compile(r"\d[./-]\d{2}")
# that of somebody's death is one that comes before a day
CROSS_OF_DAY = re.compile(r"\+\s*(?:\d{1,2}[./-]){0,2}(?:19|20)\d\d\b|\+\s*\d{1,2}([./-])\d{1,2}\1\d\d\b")
KNOWN_RELATIVES = {
    plain(word) for word in [*listed(YOUNG), *listed(
        "Mutter, Vater, Muttertier, dam, sire, mother, father, mère, père, Wurf, Würfe, Wurfgeschwister, litter, portée"
    )]
}  # fmt: skip
# what tells of castrations wherever it stands, but for what is to come
KNOWN_CASTRATIONS = {
    plain(word) for word in listed(
        "kastriert, kastr, Kastration, castrated, castration, gelded, neutered, castré, châtré"
    )
}  # fmt: skip
# a word with a digit right behind it may be a code, as `OX1` is that of a place
JOINED = re.compile(r"[^\W\d_]\d")
TO_COME = {plain(word) for word in listed("soll, sollte, muss, werden, wird, should, must, be, avant, vor, before")}


def those_with(known: Collection[str], texts: Iterable[str]) -> Iterator[str]:
    """Those of many texts in which a word may stand: few have one, and they alone are looked at closer."""
    folded = {text: plain(text) for text in texts}
    together = "\n".join(folded.values())
    words = [word for word in known if word in together]
    return (text for text, within in folded.items() if any(word in within for word in words))


def telling_exits(texts: Collection[str], title: str = "") -> set[str]:
    """Those of the texts of a column with this title."""
    alone = KNOWN_ALONE | KNOWN_IN_REMARKS if plain(title) in OF_REMARKS else KNOWN_ALONE
    likely = {*those_with(KNOWN_PLAIN | KNOWN_LOSSES | alone, texts), *filter(is_death, texts)}
    return {text for text in likely if tells_exit(text, alone)}


def telling_castrations(texts: Collection[str]) -> set[str]:
    return {text for text in those_with(KNOWN_CASTRATIONS | KNOWN_CASTRATED, texts) if tells_castration(text)}


def is_death(text: str) -> bool:
    """Has it a sign of one? A plus alone counts points."""
    return "+" not in text and DEAD.search(text) is not None or CROSS_OF_DAY.match(text) is not None


def tells_exit(text: str, alone: set[str] = KNOWN_ALONE) -> bool:
    """Does it tell that the animal left? A word that may stand for another thing has to be alone, or with a day."""
    text = without_young(text)
    tells = is_death(text) or has_word(text, KNOWN_PLAIN) or is_alone(text, alone)
    tells = tells or has_word(text, KNOWN_LOSSES) and not has_word(text, KNOWN_RELATIVES)
    return tells and not is_still_there(text)


def tells_castration(text: str) -> bool:
    """Does it tell that the animal is castrated, and not that it isn't, or will be?"""
    tells = has_word(text, KNOWN_CASTRATIONS) or is_alone(text, KNOWN_CASTRATED) and not JOINED.search(text)
    return tells and not has_word(text, KNOWN_NEGATIONS | TO_COME)


def is_alone(text: str, known: set[str]) -> bool:
    """Does it have one of the words, and nothing else but a day?"""
    words = [word for word in re.split(r"\W+|\d+", text) if word and LETTER.search(word) and compared(word) not in MONTHS]
    word = "".join(plain(word) for word in words if plain(word) not in AROUND) or "".join(map(plain, words))
    if word not in known or word not in WITH_DAY or word in KNOWN_IN_REMARKS <= known:
        return word in known
    return SHORT_DAY.search(text) is not None or bool(places_within(text))
