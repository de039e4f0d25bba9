"""The look at a sheet as societies keep them: what is read otherwise than cell by cell is said first, in three
languages, and each choice is one button that says what it does."""
from __future__ import annotations

import io

import openpyxl
import pytest
from openpyxl.styles import Font, PatternFill

from web.looks import Says, buttons_of, look_at, part, press
from web.site import Site, shown
from gudokeyi.domain.settings import LANGUAGES
from gudokeyi.render.page_language import PageLanguage

TITLES = "Ohrmarke;Name;Geschlecht;geb;Vater;Mutter;Besitzer;Abgang am;Status\n"
LIST = TITLES + (
    "001;Chäspi;m;01.02.2010;;;Huber Hans;;lebt\n002;Eva;m;03.02.2010;;;Meier Ida;;lebt\n"
    "003;A;w;3.2.13;001 / Chäspi;002;Huber Hans;;tot\n--- Jahrgang 2014 ---;;;;;;;;\n"
    '004;B;w;42000;001;002;"""";;verkauft an Meier\n005;C;w;13.01.2019 (lt. Besitzer);001 oder 009;002;dito;;lebt\n'
    "006;D;w;14.05.1887;;;Huber Hans;01.02.2020;lebt\nAlle Angaben ohne Gewähr;;;;;;;;\n"
)
SAID = (
    "as of 003, so it is taken as female", "two digits of the year in 1 cell of the column 'geb'",
    "a spreadsheet's number for a day in 1 cell", "a day and a text in 1 cell of the column 'geb'",
    "2 cells of the column 'Besitzer' repeat the one above", "owner Meier Ida, before Huber Hans",
    "'Abgang am' says '01.02.2020', and 'Status' says 'lebt'", "and not what its cell has: '14.05.1887'",
)  # fmt: skip


def test_what_is_said_first(empty_site: Site) -> None:
    """All that is read so stands among what may be wrong; the rest among what is left out or inferred."""
    address, page = look_at(empty_site, LIST)
    first, left_out = shown(part(page, "May be wrong")), shown(part(page, "Left out"))
    assert not [one for one in SAID if one not in first]
    assert "it may be one or the other, and counts as unknown" in left_out
    assert left_out.count("reads like a heading or a note") == 2
    assert {"It is an animal: take line 5", "It is an animal: take line 9"} <= {*buttons_of(page)}
    page = press(empty_site, address, page, "It is an animal: take line 9")
    assert shown(part(page, "Left out")).count("reads like a heading or a note") == 1
    empty_site.take(address)
    with empty_site.desk.opened() as book:
        assert book and "Alle Angaben ohne Gewähr" in book.society_records


@pytest.mark.parametrize("language", LANGUAGES[1:])
def test_in_other_languages(empty_site: Site, language: str) -> None:
    """No sentence of it stands in English."""
    empty_site.get(f"/language/{language}")
    _, page = look_at(empty_site, LIST)
    told = shown(part(page, "May be wrong", language)) + shown(part(page, "Left out", language))
    assert "1887" in told and not [one for one in (" the ", "column", " and ", "row ") if one in told]


@pytest.mark.parametrize("language", LANGUAGES)
def test_new_tag(empty_site: Site, language: str) -> None:
    """One click makes a new row the animal that has no row any more."""
    site, words = empty_site, PageLanguage(language)
    address, _ = look_at(site, LIST)
    site.take(address)
    site.get(f"/language/{language}")
    address, page = look_at(site, LIST.replace("003;A", "777;A"))
    page = press(site, address, page, words.gettext("{} has the tag {} from now on", "003", "777"))
    site.take(address)
    with site.desk.opened() as book:
        assert book and "777" in book.society_records and "003" not in book.society_records


TWO = LIST.replace("003;A;w;3.2.13;001 / Chäspi;002", "003;Anna;w;3.2.2013;001;002").replace(
    "006;D;w;14.05.1887;;", "006;Berta;w;14.05.2014;;"
)
SAID_OF_TWO = {
    "en": "did it exchange its id with 003 (line 8)? Each has",
    "de": "ist seine Ohrmarke mit der von 003 (Zeile 8) vertauscht?",
    "fr": "sa boucle est-elle échangée avec celle de 003 (ligne 8) ?",
}  # fmt: skip


@pytest.mark.parametrize("language", LANGUAGES)
def test_exchanged_ids(empty_site: Site, language: str) -> None:
    """It is asked once, and one click says that two animals have each other's ids."""
    site, words = empty_site, PageLanguage(language)
    address, _ = look_at(site, TWO)
    site.take(address)
    with site.desk.opened() as book:
        assert book
        numbers = {one.name: one.registration_number for one in book.society_records.values()}
    site.get(f"/language/{language}")
    later = TWO.replace("003;Anna", "6;Anna").replace("006;Berta", "003;Berta").replace("6;Anna", "006;Anna")
    address, page = look_at(site, later)
    said = shown(part(page, "May be wrong", language)).replace("\u00a0", " ")
    asked = SAID_OF_TWO[language]
    assert said.count(asked) == 1, said
    pairs = ("006", "003"), ("003", "006")
    label = "; ".join(words.gettext("{} has the tag {} from now on", *pair) for pair in pairs)
    page = press(site, address, page, label)
    assert asked not in shown(page)
    site.take(address)
    with site.desk.opened() as book:
        assert book and book.society_records["006"].name == "Anna"
        assert {one.name: one.registration_number for one in book.society_records.values()} == numbers


SAID_OF_TAG = {
    "en": "is it another animal that got the tag of one of the book? There it is 'E'",
    "de": "ist es ein anderes Tier, das die Ohrmarke eines Tieres im Herdbuch bekam? Dort ist es „E“",
    "fr": "est-ce un autre animal qui a reçu la boucle d'un animal du livre ? Là c'est « E »",
}  # fmt: skip


@pytest.mark.parametrize("language", LANGUAGES)
def test_tag_of_another(empty_site: Site, language: str) -> None:
    """It is asked among what may be wrong, before what it changes."""
    site, row = empty_site, "041;{};w;1.{}.2012;001;{};Huber Hans;;lebt\n"
    address, _ = look_at(site, LIST + row.format("E", 2, "002"))
    site.take(address)
    site.get(f"/language/{language}")
    _, page = look_at(site, LIST + row.format("F", 3, "005"))
    said = shown(part(page, "May be wrong", language)).replace("\u00a0", " ").replace("\u202f", " ")
    assert said.count(SAID_OF_TAG[language]) == 1, said


SHEEP = "Ohrmarke;Name;Geschl.;Geb.;Vater;Mutter\n" + (
    "1;Max;W;1.3.2017;;\n2;Alma;Aue;1.3.2018;;\n3;Moritz;W;2.3.2019;Max;Alma\n4;Cilia;Aue;3.3.2022;Max;Alma\n"
)
SAID_OF_SEXES = {
    "en": "each sex of the column 'Geschl.' is read as female: 'W' (2 animals), 'Aue' (2 animals): does one of",
    "de": "jedes Geschlecht der Spalte „Geschl.“ ist als weiblich gelesen: „W“ (2-mal), „Aue“ (2-mal): steht",
    "fr": "chaque sexe de la colonne « Geschl. » est lu comme femelle : « W » (2 fois), « Aue » (2 fois) :",
}  # fmt: skip


@pytest.mark.parametrize("language", LANGUAGES)
def test_two_words_for_one_sex(empty_site: Site, language: str) -> None:
    """One click says which is the other."""
    site, says = empty_site, Says(language)
    site.get(f"/language/{language}")
    address, page = look_at(site, SHEEP)
    said = shown(part(page, "May be wrong", language)).replace("\u00a0", " ").replace("\u202f", " ")
    assert said.count(SAID_OF_SEXES[language]) == 1, said
    page = press(site, address, page, says("'{}' means: {}", "W", says("male")))
    assert says("'{}' means: {}", "Aue", says("male")) not in buttons_of(page)


OF_LETTERS = "7;Max;B;1.3.2017;;\n9;Alma;C;1.3.2018;;\n3;Kim;S;2.3.2019;Max;Alma\n4;Ida;C;3.3.2022;Max;Alma\n"
SAID_OF_LETTERS = {
    "en": "'C' (2 animals, 1 of them a dam), 'B' (1 animal, 1 of them a sire), 'S' (1 animal): write M or F",
    "de": "„C“ (2 Tiere, davon 1 Mutter), „B“ (1 Tier, davon 1 Vater), „S“ (1 Tier): schreiben Sie M oder W",
    "fr": "« C » (2 animaux, dont 1 mère), « B » (1 animal, dont 1 père), « S » (1 animal) : écrivez M ou F",
}  # fmt: skip


@pytest.mark.parametrize("language", LANGUAGES)
def test_letters_known_by_offspring(empty_site: Site, language: str) -> None:
    """What offspring say is one click; a letter of no parent has buttons of its own."""
    site, says = empty_site, Says(language)
    site.get(f"/language/{language}")
    address, page = look_at(site, SHEEP.splitlines()[0] + "\n" + OF_LETTERS)
    assert SAID_OF_LETTERS[language] in shown(page).replace("\u00a0", " ").replace("\u202f", " ")
    dams, sires = (says("'{}' means: {}", *one) for one in (("C", says("female")), ("B", says("male"))))
    others = [says("'{}' means: {}", "S", says(sex)) for sex in ("male", "female")]
    assert buttons_of(page) == [f"{dams}; {sires}", dams, sires, *others]
    page = press(site, address, page, f"{dams}; {sires}")
    assert buttons_of(page) == others


KIDS = "041;E;w;1.2.2012;001;002;Huber Hans;;lebt\n042;Kid;w;1.2.2019;001;041;Huber Hans;;lebt\n"
FAMILY = LIST + KIDS + "043;Kit;w;1.2.2021;001;042;Huber Hans;;lebt\n"


@pytest.mark.parametrize("language", LANGUAGES)
def test_new_tags_of_a_family(empty_site: Site, language: str) -> None:
    """A dam, her kid and that one's, who are in the sheet by their new tags alone, are proposed at once; each button is
    one decision, and with all of them none is new."""
    site, words = empty_site, PageLanguage(language)
    address, _ = look_at(site, FAMILY)
    site.take(address)
    site.get(f"/language/{language}")
    tags = {"041": "741", "042": "742", "043": "743"}
    later = FAMILY
    for before, now in tags.items():
        later = later.replace(before, now)
    address, page = look_at(site, later)
    first = shown(part(page, "May be wrong", language)).replace("\u00a0", " ")
    said = words.gettext(
        "it has the name, the birth day and the parents of {before}, which has no row any more: it is taken as another "
        "animal"
    ).replace("\u00a0", " ")
    assert [one for one in tags if said.format(before=one) not in first] == []
    labels = {before: words.gettext("{} has the tag {} from now on", before, now) for before, now in tags.items()}
    for pressed, label in enumerate(labels.values(), 1):
        page = press(site, address, page, label)
        left = [one for one in labels.values() if one in buttons_of(page)]
        assert left == [*labels.values()][pressed:]
    site.take(address)
    with site.desk.opened() as book:
        assert book and tags.keys().isdisjoint(book.society_records)
        numbers = [book.society_records[one].registration_number for one in tags.values()]
        assert [book.records[one].dam for one in numbers[1:]] == numbers[:-1]


@pytest.mark.parametrize(
    "language, told",
    [
        ("en", "2 rows have a grey fill, the first is line 4: nothing is read from it"),
        ("de", "2 Zeilen, zuerst 4, sind grau hinterlegt: daraus wird nichts gelesen"),
        ("fr", "2 lignes, d'abord la 4, ont un fond gris : rien n'en est lu"),
        ("en", "1 row has a fill of another colour than the others, line 3: nothing is read from it"),
        ("de", "1 Zeile, 3, ist in einer anderen Farbe hinterlegt als die übrigen: daraus wird nichts gelesen"),
        ("fr", "1 ligne, la 3, a un fond d'une autre couleur que les autres : rien n'en est lu"),
        ("en", "2 rows are hidden, the first is line 5: they are taken like all others"),
        ("de", "2 Zeilen, zuerst 5, sind ausgeblendet: sie werden wie alle übernommen"),
        ("fr", "2 lignes, d'abord la 5, sont masquées : elles sont prises comme toutes"),
        ("en", "the text of 1 cell is struck through, 'w' in line 8 of the column 'Geschlecht', and is read like all others"),
        ("de", "der Text von 1 Zelle ist durchgestrichen, „w“ in Zeile 8 der Spalte „Geschlecht“; er wird wie alle gelesen"),
        ("fr", "le texte de 1 cellule est barré, « w » à la ligne 8 de la colonne « Geschlecht » ; il est lu"),
    ],
)
def test_grey_rows(empty_site: Site, language: str, told: str) -> None:
    """That some rows are filled grey is told, with the first of them, and that some are hidden, or a cell is struck
    through. Nobody knows what it means, so there is no button for it, and their animals are taken as living ones."""
    site = empty_site
    site.get(f"/language/{language}")
    workbook, file = openpyxl.Workbook(), io.BytesIO()
    sheet = workbook.active
    sheet.append("Ohrmarke;Geschlecht;geb;Vater;Mutter".split(";"))
    for at in range(1, 9):
        sheet.append([f"{at:03}", "w", f"1.2.{2010 + at}", "", ""])
    for cell in [*sheet[4], *sheet[6]]:
        cell.fill = PatternFill("solid", fgColor="FFBFBFBF")
    for cell in sheet[3]:
        cell.fill = PatternFill("solid", fgColor="FFFF0000")
    sheet.row_dimensions.group(5, 6, hidden=True)
    sheet["B8"].font = Font(strike=True)
    workbook.save(file)
    address = site.drop("liste.xlsx", file.getvalue())
    page = site.page(address)
    assert told in shown(part(page, "May be wrong", language)).replace("\u00a0", " ") and buttons_of(page) == []
    site.take(address)
    with site.desk.opened() as book:
        assert book and len(book.society_records) == 8 and not any(map(book.has_left, book.society_records.values()))


def test_one_decision_for_a_button(empty_site: Site) -> None:
    """Whether a sheet has no column for the sire, or none for the dam, are two buttons, each with its words."""
    _, page = look_at(empty_site, "Ohrmarke;Geschlecht;geb\n1;m;1.2.2010\n2;w;1.2.2010\n")
    assert buttons_of(page) == ["Read no column for: Sire", "Read no column for: Dam"]


@pytest.mark.parametrize(
    "language, titles, castrated, inferred",
    [
        ("en", "id,name,number,sex,birth,sire,dam,owner,exit", "male castrated", "Birth day: inferred"),
        ("de", "Ohrmarke;Name;Nummer;Geschlecht;Geburtstag;Vater;Mutter;Besitzer;Abgang", "männlich kastriert",
         "Geburtstag: erschlossen"),
        ("fr", "Boucle;Nom;Numéro;Sexe;Date de naissance;Père;Mère;Propriétaire;Sortie", "mâle castré",
         "Date de naissance : déduit"),
    ],
)  # fmt: skip
def test_file_of_animals(empty_site: Site, language: str, titles: str, castrated: str, inferred: str) -> None:
    """It has the titles of the page's language, castrated males as such, and what is inferred in a column of its own;
    dropped again it changes nothing."""
    site = empty_site
    rows = "001;Max;m;3.2.2010;;;Huber;;\n002;Moritz;Kastrat;3/2012;001;;Huber;1.2.2020;\n"
    address, _ = look_at(site, TITLES + rows)
    site.take(address)
    site.get(f"/language/{language}")
    text = site.get("/animals.csv").get_data(as_text=True).removeprefix("\ufeff")
    assert text.startswith(titles) and castrated in text and inferred in text.replace("\u00a0", " ")
    assert "2012-03-16," in text.replace(";", ",")
    site.get("/language/en")
    page = site.page(site.drop("again.csv", text.encode()))
    assert "of these in the book already 2" in shown(page) and "Changed" not in shown(page)


@pytest.mark.parametrize("language", LANGUAGES)
def test_id_unlike_others(empty_site: Site, language: str) -> None:
    """A row whose id is unlike the others is left out by one click; one without its zeros is told."""
    words = PageLanguage(language)
    empty_site.get(f"/language/{language}")
    rows = "".join(f"00410{at:03};;w;01.02.2010;;;Huber Hans;;\n" for at in range(1, 30))
    address, page = look_at(empty_site, f"{TITLES}{rows}gez. Huber;;;03.01.2024;;;;;\n410777;;w;01.02.2010;;;;;\n")
    told = shown(part(page, "May be wrong", language))
    fewer = "its id has fewer digits than nearly all others, such as {usual}: did a spreadsheet drop its zeros?"
    said = words.gettext(fewer).format(usual="00410001").replace("\u00a0", " ")
    assert said in told and told.count("00410001") == 2
    page = press(empty_site, address, page, words.gettext("Leave out line {}", "31"))
    assert shown(part(page, "May be wrong", language)).count("00410001") == 1
    empty_site.take(address)
    with empty_site.desk.opened() as book:
        assert book and "gez. Huber" not in book.society_records and "410777" in book.society_records


@pytest.mark.parametrize(
    "language, words",
    [
        ("en", ("tell of something other than exits", "has 'alte Marke 003'", "did that one get a new tag?")),
        ("de", ("etwas anderes als einen Abgang", "hat „alte Marke 003“", "hat dieses eine neue Marke?")),
        ("fr", ("disent autre chose qu'une sortie", "a « alte Marke 003 »", "celui-ci a-t-il une nouvelle boucle ?")),
    ],
)
def test_exits_and_old_tags(empty_site: Site, language: str, words: tuple[str, ...]) -> None:
    """What is no exit, and an old tag in a column that isn't read, stand among what may be wrong; a button makes the
    row that animal."""
    site, titles = empty_site, TITLES.replace(";Status", ";Notiz")
    rows = "001;Max;m;1.2.2010;;;Huber;;\n002;Eva;w;1.2.2010;;;Huber;;\n"
    address, _ = look_at(site, titles + rows + "003;A;w;3.2.2013;001;002;Huber;;\n")
    site.take(address)
    site.get(f"/language/{language}")
    rows = "001;Max;m;1.2.2010;;;Huber;kastriert 2013;\n002;Eva;w;1.2.2010;;;Huber;prêtée;\n"
    address, page = look_at(site, titles + rows + "777;B;w;3.2.2013;001;002;Huber;;alte Marke 003\n")
    first = shown(part(page, "May be wrong", language)).replace("\u00a0", " ")
    assert [one for one in words if one not in first] == []
    page = press(site, address, page, PageLanguage(language).gettext("{} has the tag {} from now on", "003", "777"))
    site.take(address)
    with site.desk.opened() as book:
        assert book and "777" in book.society_records and "003" not in book.society_records
        assert not any(book.has_left(one) for one in book.society_records.values())
