"""The words that cells of sheets have, in English, German and French, and what a cell for an exit says in words."""
from __future__ import annotations

import itertools
import re
from collections.abc import Iterator

from gudokeyi.ingest.texts import listed, plain

# The words that cells of sheets have, in English, German and French.

UNKNOWN = (
    "na, <na>, nan, n/a, nn, none, null, unknown, unk, not known, not recorded, not available, unknown sire, unknown "
    "dam, unbekannt, unbek, nicht bekannt, nb, ka, keine angabe, keine angaben, fehlt, inconnu, inconnue, non connu, "
    "non connue, pas connu, non renseigné, non renseignée, nc, nr, n/k, nbek, fremd, Zukauf, zugekauft, unregistered, "
    "not registered, not yet registered, not yet reg, Vater unbekannt, Mutter unbekannt, père inconnu, mère inconnue, "
    "onc, origine non constatée, origine inconnue, sire unknown, dam unknown, father unknown, mother unknown, unknown "
    "father, unknown mother, Vater unbek, Mutter unbek, unbekannter Vater, unbekannte Mutter, Vater nicht bekannt, "
    "Mutter nicht bekannt, père non déclaré, mère non déclarée, non déclaré, non déclarée, non enregistré, non "
    "enregistrée, non inscrit, non inscrite, nicht eingetragen, nicht eingetr, nicht registriert, nicht erfasst, "
    "néant, né de père inconnu, née de père inconnu, né de mère inconnue, née de mère inconnue, de père inconnu, de mère "
    "inconnue, né de parents inconnus, née de parents inconnus, parents inconnus, origines inconnues, "
    "von unbekanntem Vater, von unbekannter Mutter, "
    "Fremdbock, Fremdwidder, Fremdhengst, Fremdbulle, Fremdrüde, Fremdkater, stray, stray tom, mixed mating, mixed "
    "matings, group mating, pending DNA, DNA pending, -1, -9, -99, -999, -9999"
)
# `M` is male in all three languages, and `W` is weiblich; single letters that mean two things aren't here.
SEXES = {
    "M": "m, male, mnl, männlich, maennlich, männl, männliche, Männchen, mâle, mâle entier, masculin, masc, entier, "
    "entire, stud, Vatertier, reproducteur, géniteur, macho, ♂, "
    "bull, bull calf, Bulle, Jungbulle, Zuchtbulle, Deckbulle, Mastbulle, Bullenkalb, Bullkalb, Stier, Jungstier, "
    "Zuchtstier, Deckstier, Maststier, Altstier, Stierkalb, Muni, Zuchtmuni, Munikalb, Farren, taureau, taurillon, "
    "broutard, "
    "ram, ram lamb, tup, tup lamb, buck, buck kid, buckling, billy, Bock, Schafbock, Ziegenbock, Zuchtbock, "
    "Deckbock, Jungbock, Altbock, Jährlingsbock, Bocklamm, Bockkitz, Bockgitzi, Kitzbock, Widder, Jungwidder, "
    "Altwidder, Zuchtwidder, Deckwidder, Widderlamm, bélier, antenais, agneau mâle, bouc, "
    "stallion, colt, Hengst, Junghengst, Deckhengst, Zuchthengst, Jährlingshengst, Hengstfohlen, étalon, poulain, "
    "jack, jackass, Esel, Eselhengst, baudet, âne, ânon, bourricot, "
    "boar, Eber, Jungeber, Zuchteber, verrat, "
    "dog, Hund, Rüde, Jungrüde, Zuchtrüde, Deckrüde, chien, tom, tomcat, Kater, Jungkater, Zuchtkater, Deckkater, "
    "chat, matou, "
    "Rammler, Jungrammler, Altrammler, Zuchtrammler, lapin, bouquin, "
    "cock, cockerel, rooster, Hahn, Junghahn, Althahn, Zuchthahn, Gockel, Güggel, coq, coquelet, drake, Erpel, "
    "gander, Ganter, Gänserich, jars, gobbler, Truthahn, Puter, dindon, Täuber, Täuberich",
    "F": "f, fs, fn, bs, female, fem, w, wbl, weiblich, weibl, weibliche, Weibchen, femelle, féminin, fém, spayed, "
    "âne femelle, lapin femelle, chat femelle, chien femelle, "
    "spayed female, Mutter, Muttertier, reproductrice, génitrice, hembra, ♀, "
    "cow, heifer, hfr, heifer calf, maiden heifer, freemartin, Kuh, Jungkuh, Altkuh, Zuchtkuh, Milchkuh, "
    "Mutterkuh, Erstlingskuh, Färse, Zuchtfärse, Kalbin, Jungkalbin, Zuchtkalbin, Kalbe, Sterke, Starke, Queene, "
    "Kuhkalb, vache, génisse, vêle, velle, broutarde, primipare, "
    "ewe, ewe lamb, gimmer, theave, chilver, yow, yowe, Aue, Au, Jungaue, Altaue, Zuchtaue, Aulamm, Auelamm, "
    "Auenlamm, Mutterschaf, Mutterlamm, Zibbe, Zibbenlamm, Zutreterin, brebis, antenaise, agnelle, agneau femelle, "
    "doe, doe kid, doeling, goatling, nanny, Ziege, Jungziege, Altziege, Zuchtziege, Milchziege, Mutterziege, "
    "Zicke, Geiß, Geiss, Gaiß, Gais, Junggeiß, Altgeiß, Zuchtgeiß, Muttergeiß, Jährlingsgeiß, Geißkitz, "
    "Geißgitzi, Kitzgeiß, chèvre, chevrette, bique, biquette, "
    "mare, broodmare, filly, Stute, Jungstute, Zuchtstute, Mutterstute, Jährlingsstute, Stutfohlen, Stutenfohlen, "
    "jument, poulinière, pouliche, poulain femelle, "
    "jenny, jennet, Eselin, Eselstute, ânesse, ânonne, ânon femelle, "
    "sow, gilt, Sau, Jungsau, Altsau, Zuchtsau, Muttersau, Mutterschwein, truie, cochette, coche, "
    "bitch, brood bitch, Hündin, Junghündin, Zuchthündin, chienne, queen, Kätzin, Jungkätzin, Zuchtkätzin, Katze, "
    "Zuchtkatze, chatte, Häsin, Junghäsin, Althäsin, Zuchthäsin, Zippe, lapine, "
    "hen, pullet, Henne, Junghenne, Althenne, Zuchthenne, Legehenne, Glucke, poule, poulette, cane, Truthenne, "
    "Pute, dinde, Täubin",
}
# what animals of either sex are called: such a word says none, and is no short form of a longer one
OF_EITHER_SEX = (
    "calf, Kalb, Rind, veau, lamb, Lamm, Schaf, sheep, agneau, kid, goat, Kitz, Gitzi, Zicklein, chevreau, cabri, "
    "foal, horse, Fohlen, Füllen, Pferd, cheval, donkey, mule, pig, piglet, hog, Ferkel, Schwein, porcelet, cochon, "
    "pup, puppy, Welpe, chiot, cat, kitten, chaton, rabbit, kit, Kaninchen, Hase, lapereau, chick, chicken, Huhn, "
    "Küken, poussin, duck, Ente, canard, goose, Gans, oie, turkey, Taube, pigeon, cria, Jungtier, young, jeune, he"
)
# what stands for the sex of a castrated male where words for sexes are said
CASTRATED_MALE = "C"
# males that have no offspring any more
CASTRATED = (
    "castrated, castrate, male castrated, neutered male, mn, mc, dn, Kastrat, Frühkastrat, kastr, kastriert, männlich "
    "kastriert, castrat, castré, mâle castré, châtré, mâle châtré, "
    "ox, steer, bullock, bullock calf, steer calf, Ochse, Ochs, Mastochse, Ochsenkalb, bœuf, boeuf, "
    "bouvillon, "
    "wether, wedder, wether lamb, Hammel, Hammellamm, Schöps, mouton castré, "
    "gelding, Wallach, Jungwallach, Eselwallach, hongre, âne castré, barrow, Borg, Rüde kastriert, capon, "
    "Kapaun, chapon"
)
# short forms of these, which mean something else in other columns, as `blk` for black
CASTRATED_SHORT = "str, blk, bllk, gldg"
# words that stand beside one for a sex
NEUTERED = (
    "neut, neutered, cast, castr, castrated, kast, kastr, kastriert, gelded, gelegt, sterilisiert, castré, castrée, "
    "châtré, stérilisé, stérilisée"
)
# those of them that are said of males alone
GELDED = "gelded, gelegt, castré, châtré"
# words for females of lists in which W isn't weiblich: where it would be, `f` and `female` aren't, and W is Wallach
# beside mares
BESIDE_FEMALES = (
    "f, female, fem, cow, heifer, hfr, ewe, gimmer, theave, chilver, doe, doeling, goatling, nanny, mare, broodmare, "
    "filly, sow, gilt, bitch, brood bitch, queen, jenny, jennet, Stute, Jungstute, Zuchtstute, Mutterstute, Stutfohlen"
)
# those of them that German lists have too, beside `w`
FEMALES = "f, female, fem"
# words with which a sex isn't sure
DOUBTS = (
    "verm, vermutl, vermutlich, wohl, evtl, eventuell, wahrsch, wahrscheinlich, unsicher, prob, probably, maybe, perhaps, "
    "possibly, uncertain, unsure, not sure, peut-être, probable, probablement, incertain, pas sûr, inferred, invented"
)
# how breeders of small animals count males and females
COUNTED_SEXES = {"1,0": "M", "0,1": "F", "1.0": "M", "0.1": "F", "1/0": "M", "0/1": "F"}
# a word for a grown male that isn't castrated tells behind one of these that it was castrated since
FORMER = "ex, former, formerly, was, früher, früherer, ehemals, ehemaliger, ehem, war, ancien, anciennement"
GROWN_MALES = (
    "stallion, bull, ram, buck, boar, Hengst, Bulle, Stier, Widder, Bock, Eber, étalon, taureau, bélier, bouc, verrat"
)
# what cells for an exit say of animals that haven't left, and of those that have
STAYS = (
    "lebt, lebend, lebendig, vorhanden, im Bestand, in Bestand, Bestand, aktiv, Zuchttier, in Zucht, alive, living, "
    "lives, active, present, in herd, in flock, current, breeding, vivant, vivante, en vie, actif, active, présent, "
    "présente, am Leben, vorh, im Herdbuch, im Zuchtbuch, in herd book, in the herd book, au livre, au troupeau"
)
# what may stand beside such a word, and says no more than that
AROUND_STAYS = (
    "Stand, per, seit, ab, am, im, in, den, dem, der, noch, immer, bei, uns, hier, da, heute, aktuell, derzeit, "
    "zurzeit, z, Zt, ist, und, ja, aktive, aktiver, aktives, of, as, on, since, at, to, the, here, today, still, now, "
    "currently, date, and, is, yes, depuis, le, en, au, à, ce, jour, encore, toujours, ici, actuellement, chez, nous, "
    "et, est, oui"
)
EXITS = (
    "ja, yes, oui, x, verkauft, verk, Verkauf, geschlachtet, Schlachtung, geschl, schl, gestorben, gest, verstorben, "
    "verst, verendet, verend, abg, abgeg, gestrichen, gelöscht, ausgetragen, radié, radiée, deregistered, "
    "eingegangen, tot, Tod, abgegangen, Abgang, ausgeschieden, exportiert, gekeult, euthanasiert, notgetötet, "
    "notgeschlachtet, eingeschläfert, eingeschl, euth, getötet, verunglückt, abgegeben, gestohlen, gerissen, "
    "Notschlachtung, gemerzt, ausgemerzt, abgestürzt, ertrunken, erschossen, umgestanden, krepiert, verschollen, "
    "Wolfsriss, Luchsriss, drowned, noyé, noyée, foudroyé, foudroyée, "
    "weg, inaktiv, sold, sale, slaughtered, "
    "slaughter, dead, died, death, deceased, culled, exported, gone, left, lost, stolen, killed, euthanised, "
    "euthanized, put to sleep, put down, rehomed, vendu, vendue, vente, abattu, abattue, abattage, mort, morte, "
    "décédé, décédée, décès, dcd, réformé, réformée, réforme, sorti, sortie, exporté, exportée, volé, volée, "
    "euthanasié, euthanasiée, inactif, inactive"
)
# short forms for one in a column of exits: in one of states `eing.` may be eingetragen, and `ausg.` ausgestellt
SHORT_EXITS = "eing, ausg, gestochen"
# those of a sale, or of any exit
SALES = (
    "verkauft, verk, Verkauf, abgegeben, abgeg, abg, abgegangen, Abgang, weg, sold, sale, gone, left, vendu, vendue, "
    "vente, sorti, sortie"
)
# what may stand beside such a word that tells of the animal itself
AROUND_EXITS = (
    "aber, wurde, wird, ist, jetzt, nun, inzwischen, seit, am, im, in, an, ab, zu, nach, ins, bei, für, um, mit, wegen, "
    "durch, als, und, oder, but, was, is, has, been, now, since, on, at, to, for, from, by, due, as, with, and, or, "
    "mais, est, a, été, maintenant, depuis, le, en, à, au, aux, pour, par, chez, comme, avec, et, ou"
)
# what such cells tell of animals that are still there, beside a day or alone: of rest, loans, castrations, matings,
# care and sales that aren't made
STILL_THERE = (
    "retired, retirement, pensioned, in retirement, loaned, on loan, lent, leased, on lease, leased out, castrated, "
    "gelded, neutered, spayed, covered, served, mated, inseminated, bred, pregnant, in foal, in calf, in lamb, in kid, "
    "weaned, vaccinated, vaccination, shorn, shearing, castration, loan, chipped, returned, came back, for sale, reserved, "
    "exhibited, "
    "Zuchtruhe, im Ruhestand, Ruhestand, Rente, in Rente, Rentner, Gnadenbrot, in Pension, Pension, Pensionsstall, "
    "verliehen, ausgeliehen, Leihgabe, Leihe, geliehen, verpachtet, kastriert, kastr, Kastration, sterilisiert, "
    "gedeckt, belegt, besamt, Besamung, Deckeinsatz, Bedeckung, trächtig, tragend, abgesetzt, geimpft, Impfung, Schur, "
    "entwurmt, gesperrt, ausgestellt, geschoren, gechipt, zurück, zurückgekommen, zurückgekehrt, zu verkaufen, zu verk, "
    "reserviert, retraité, retraitée, retraite, à la retraite, en retraite, mis à la retraite, en pension, mis en pension, "
    "prêté, prêtée, prêt, en prêt, loué, louée, castré, castrée, castration, stérilisé, stérilisée, saillie, sailli, "
    "saillies, couverte, inséminé, inséminée, insémination, gestante, pleine, gravide, sevré, sevrée, vacciné, vaccinée, "
    "vaccination, tondu, tondue, tonte, pucé, pucée, revenu, revenue, de retour, retour, à vendre, en vente, réservé, "
    "réservée, exposé, exposée, geheilt, ausgeheilt, genesen, gesund, healed, recovered, cured, guéri, guérie, rétabli, "
    "rétablie, "
    "non-breeding, non breeder, nicht zur Zucht, nicht in Zucht, zuchtuntauglich, zuchtunfähig, zuchtgesperrt, "
    "Zuchtsperre, Zuchtverbot, non reproducteur, non reproductrice, hors reproduction"
)
# the same of animals that came, are still there, or were looked at
OTHER_EVENTS = (
    "noch da, noch hier, wieder da, still here, still there, toujours là, toujours ici, encore là, Zugang, zugekauft, "
    "Zukauf, gekauft, gek, angekauft, Ankauf, gekört, Körung, eingetragen, bought, purchased, registered, due, acheté, "
    "achetée, achat, inscrit, inscrite"
)
# the same of animals that another owner has since
OWNER_CHANGES = (
    "changement de propriétaire, changement de détenteur, changement propriétaire, mutation, transfert, cession, "
    "change of owner, change of ownership, owner change, ownership change, ownership transfer, transfer, transferred, "
    "Besitzerwechsel, Besitzwechsel, Halterwechsel, Eigentümerwechsel, Eigentumswechsel, Wechsel, Umstellung"
)
# words that tell that an animal came back
RETURNS = (
    "zurück, zurückgekommen, zurückgekehrt, zurückgekauft, zurückgegeben, zurückgenommen, zurückgeholt, Rückkauf, "
    "Rückgabe, wieder da, returned, came back, back, revenu, revenue, retour, retourné, retournée, repris, reprise, "
    "racheté, rachetée"
)
# words in parents' cells that tell how an animal came to be, and name no parent
NO_PARENTS = (
    "Leihhengst, Leihbock, Leihbulle, Deckhengst, Deckbock, Deckbulle, Herdensprung, Herdenbock, Natursprung, Besamung, "
    "Sprung, mehrere, verschiedene, diverse, Import, importiert, gekauft, zugekauft, Ankauf, siehe, Flaschenkind, "
    "Flaschenlamm, Waise, verst, verstorben, gestorben, tot, Nachbar, borrowed, hired, insemination, several, various, "
    "imported, bought, purchased, see, bottle, orphan, dead, died, insémination, importé, importée, acheté, achetée, "
    "plusieurs, divers, voir, saillie, biberon, orphelin, orpheline, mort, morte, voisin"
)
# what says in an owner's cell that there is none
NO_OWNERS = (
    "néant, keine, keiner, kein Besitzer, kein Eigentümer, kein Halter, aucun, aucune, aucun propriétaire, sans "
    "propriétaire, no owner, nil"
)
# what stands there in place of a name: somebody who is called otherwise, or that there is nothing to say
NO_NAMES = (
    "RAS, do, self, myself, me, own, owner, owned, breeder, keeper, nobody, no one, selbst, selber, ich, eigen, "
    "eigene, eigener, eigenes, Besitzer, Eigentümer, Halter, Züchter, Tierhalter, niemand, moi, moi-même, lui-même, "
    "elle-même, soi-même, propriétaire, détenteur, éleveur, éleveuse, naisseur, personne"
)
# what says since when an owner has an animal: since it was born
SINCE_BIRTH = (
    "birth, its birth, at birth, by birth, born here, born on farm, homebred, home bred, own bred, own breeding, bred, "
    "bred here, Geburt, der Geburt, Geburt an, von Geburt an, von Geburt, bei Geburt, hier geboren, Eigenzucht, eigene "
    "Zucht, aus eigener Zucht, eigene Nachzucht, Nachzucht, selbst gezüchtet, Wurf, eigener Wurf, Eigenwurf, naissance, "
    "la naissance, sa naissance, à la naissance, né ici, née ici, né chez nous, née chez nous, né à la maison, née à la "
    "maison, né à la ferme, née à la ferme, né à l'élevage, née à l'élevage, propre élevage, notre élevage"
)
# names of animals that never lived
BORN_DEAD = "totgeburt, totgeboren, stillborn, still born, stillbirth, mort-né, mort-née, mortné, mortinato"
# with one of these a word for a living animal tells of one that has left
NEGATIONS = "nicht, kein, keine, nimmer, not, no, never, pas, plus, non"
# what stands for no exit where one would stand
NOTHING = "néant, RAS, R.A.S, rien, rien à signaler, aucun, aucune, kein, keine, keiner, keins, nichts, none, nothing, nil"
YES = "1, x, yes, y, true, et, embryo, ja, j, wahr, oui, o, vrai"
NO = "0, -, no, n, false, nein, falsch, non, faux"
# ids of rows that count or sum up
SUMS = (
    "Summe, gesamt, Gesamtsumme, Gesamtzahl, insgesamt, Anzahl, Zwischensumme, Durchschnitt, Mittelwert, Mittel, sum, "
    "total, totals, subtotal, grand total, count, average, mean, somme, nombre, moyenne, total général"
)
# what stands in place of an id that an animal doesn't have yet, or has no more
TO_COME = (
    "pending, applied for, awaited, awaiting, to follow, to come, in progress, in process, not yet, none yet, no "
    "number, tba, tbc, tbd, to be advised, to be confirmed, to be allocated, provisional, temporary, new, "
    "in Arbeit, in Bearbeitung, beantragt, angemeldet, ausstehend, folgt, kommt, offen, noch offen, noch keine, noch "
    "nicht, ohne Nummer, keine Nummer, vorläufig, neu, "
    "en cours, en attente, en instance, à venir, à suivre, demandé, demandée, pas encore, sans numéro, provisoire, "
    "nouveau, nouvelle, "
    "no tag, lost, missing, ohne, ohne Marke, ohne Ohrmarke, keine, keine Marke, keine Ohrmarke, verloren, nachtragen, "
    "sans, sans boucle, aucun, aucune, perdu, perdue, manque"
)
# what spreadsheets show in place of a value that they can't compute
ERROR_VALUE = re.compile(
    r"#(REF|BEZUG|N/A|NV|WERT|VALUE|VALEUR|NAME|NOM|DIV/0|NUM|ZAHL|NOMBRE|NULL|ÜBERLAUF|SPILL|PROPAGATION|CALC|KALK|"
    r"FIELD|FELD|CHAMP|BLOCKED|GETTING_DATA)[!?]?|Err:\d{3}|#{3,}",
    re.IGNORECASE,
)
# what words are written with, but for digits
LETTER = re.compile(r"[^\W\d_]|[°♂♀]")


def is_error_value(text: str) -> bool:
    """Is it what a spreadsheet shows in place of a value?"""
    return (text[:1] == "#" or text[:3] == "Err") and ERROR_VALUE.fullmatch(text) is not None


KNOWN_SEXES = {plain(word): sex for sex, words in SEXES.items() for word in listed(words)}
KNOWN_CASTRATED = {plain(word) for word in listed(CASTRATED)}
KNOWN_CASTRATED |= {plain(former + word) for former in listed(FORMER) for word in listed(GROWN_MALES)}
KNOWN_SEXES |= {word: "M" for word in KNOWN_CASTRATED}
KNOWN_CASTRATED_SHORT = {plain(word) for word in listed(CASTRATED_SHORT)}
KNOWN_SEXES |= {word: "M" for word in KNOWN_CASTRATED_SHORT}
KNOWN_OF_EITHER_SEX = {plain(word) for word in listed(OF_EITHER_SEX)}
KNOWN_NEUTERED = {plain(word) for word in listed(NEUTERED)}
KNOWN_GELDED = {plain(word) for word in listed(GELDED)}
BESIDE_WETHERS = {plain(word) for word in listed(BESIDE_FEMALES)}
KNOWN_FEMALES = {plain(word) for word in listed(FEMALES)}
KNOWN_DOUBTS = {plain(word) for word in listed(DOUBTS)}
KNOWN_YES = {word.casefold() for word in listed(YES)}
KNOWN_NO = {word.casefold() for word in listed(NO)}
KNOWN_STAYS = {plain(word) for word in listed(STAYS)}
KNOWN_AROUND_STAYS = {plain(word) for word in [*listed(AROUND_STAYS), *re.split(r"\W+", STAYS)]}
KNOWN_EXITS = {plain(word) for word in listed(EXITS)}
KNOWN_SHORT_EXITS = {plain(word) for word in listed(SHORT_EXITS)}
KNOWN_SALES = {plain(word) for word in listed(SALES)}
KNOWN_AROUND_EXITS = KNOWN_EXITS | {plain(word) for word in listed(AROUND_EXITS)}
KNOWN_STILL_THERE = {plain(word) for word in listed(STILL_THERE)}
KNOWN_OWNER_CHANGES = {plain(word) for word in listed(OWNER_CHANGES)}
KNOWN_NO_EXITS = KNOWN_STILL_THERE | {plain(word) for word in listed(OTHER_EVENTS)}
KNOWN_RETURNS = {plain(word) for word in listed(RETURNS)}
KNOWN_NO_PARENTS = {plain(word) for word in listed(NO_PARENTS)}
KNOWN_NO_OWNERS = {plain(word) for word in listed(NO_OWNERS)}
KNOWN_NO_NAMES = {plain(word) for word in listed(NO_NAMES)}
KNOWN_SINCE_BIRTH = {plain(word) for word in listed(SINCE_BIRTH)}
KNOWN_NOTHING = {plain(word) for word in listed(NOTHING)}
KNOWN_NEGATIONS = {plain(word) for word in listed(NEGATIONS)}
KNOWN_BORN_DEAD = {plain(word) for word in listed(BORN_DEAD)}
# how all of them begin: few lists have one
BEGINS_BORN_DEAD = {word[:4].casefold() for word in listed(BORN_DEAD)}
KNOWN_TO_COME = {word.casefold() for word in listed(TO_COME)}
KNOWN_SUMS = {plain(word) for word in listed(SUMS)}


def sex_word(text: str) -> str:
    """A word for a sex as it is compared."""
    return plain(text) or text.casefold()


def has_word(text: str, known: set[str]) -> bool:
    """Are some words of the text that follow one another among those that are known? Each of these has a letter."""
    if not LETTER.search(text):
        return False
    words = [found for word in re.split(r"[^\w°♂♀]+", text) if word and (found := plain(word))]
    longest = max(map(len, known), default=0)
    return any(begin in known for at in range(len(words)) for begin in beginnings(words, at, longest))


def beginnings(words: list[str], at: int, longest: int) -> Iterator[str]:
    """The words from a place on, one and more as one text, as long as that may be one of those that are known."""
    text = ""
    for word in itertools.islice(words, at, None):
        text += word
        if len(text) > longest:
            return
        yield text
