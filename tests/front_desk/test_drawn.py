"""Pages and pictures."""
from __future__ import annotations

import fractions
import re

import pytest

from front_desk.desk import Desk
from front_desk.sheet import Secretary, sheet_text

TITLE = "{http://www.w3.org/2000/svg}title"


def tips_of(desk: Desk, name: str) -> list[str]:
    """What a picture shows where a mouse rests on it."""
    return [title.text or "" for title in desk.page(name).iter(TITLE)]


def words_of(desk: Desk, name: str) -> str:
    """All words of a page or a picture."""
    return "".join(desk.page(name).itertext())


def test_trend(secretary: Secretary, secretary_desk: Desk) -> None:
    """Each year with its mean, and how many have no year."""
    desk, values = secretary_desk, secretary.coefficients()
    desk.good("trend")
    tips, born = tips_of(desk, "book/trend.svg"), desk.born()
    years: dict[str, list[fractions.Fraction]] = {}
    for id in born.keys() - {secretary.undated, secretary.imported}:
        years.setdefault(born[id][:4], []).append(values[id])
    for year, those in years.items():
        assert f"{year}: {float(sum(those) / len(those)) * 100:.2f}% in the mean of {len(those)}" in tips
        assert f"{year}: {len(those)} animal{'s' * (len(those) > 1)}" in tips
    assert "2 more have no known birth year" in words_of(desk, "book/trend.svg")


@pytest.mark.parametrize("generations", [1, 4, 5])
def test_drawn_pedigree(secretary: Secretary, secretary_desk: Desk, generations: int) -> None:
    """The youngest animal's pedigree has each ancestor, and marks those that are inbred."""
    desk, parents, values = secretary_desk, secretary.parents(), secretary.coefficients()
    born = desk.born()
    youngest = max((row["Ohrmarke"] for row in secretary.rows), key=lambda id: (born[id], id))
    desk.good("pedigree", youngest, "--generations", str(generations), "--out", "tree.svg")
    drawn = drawn_of(parents, youngest, generations)
    tips = [tip.split(",")[0] for tip in tips_of(desk, "tree.svg")]
    assert sorted(tip.split(" ")[0] for tip in tips) == sorted(id.split(" ")[0] for id in drawn)
    words = words_of(desk, "tree.svg")
    assert words.count("F\u00a0") == sum(values[id] > 0 for id in drawn)
    assert f"{len(set(drawn)) - 1} known ancestors" in words


def drawn_of(parents: dict[str, tuple[str, str]], id: str, generations: int) -> list[str]:
    """An animal and its ancestors, as often as they are drawn."""
    drawn, level = [id], [id]
    for _ in range(generations):
        level = [parent for id in level for parent in parents[id] if parent]
        drawn += level
    return drawn


def test_drawn_on_pages(secretary: Secretary, secretary_desk: Desk) -> None:
    """All ancestors of ten generations stand on some page."""
    desk, born = secretary_desk, secretary_desk.born()
    youngest = max((row["Ohrmarke"] for row in secretary.rows), key=lambda id: (born[id], id))
    desk.good("pedigree", youngest, "--generations", "10", "--out", "tree.html")
    drawn = set(drawn_of(secretary.parents(), youngest, 10))
    tips = {tip.split(",")[0].split(" ")[0] for tip in tips_of(desk, "tree.html")}
    assert tips == {id.split(" ")[0] for id in drawn}
    assert f"{len(drawn) - 1} known ancestors" in words_of(desk, "tree.html")


@pytest.mark.parametrize(("language", "tree", "trend"), [
    ("en", "1 known ancestor; 1 more lies further back and isn't drawn.", "2001: 1 animal"),
    ("de", "1 bekannter Ahn; 1 weiterer liegt weiter zurück und ist nicht gezeichnet.", "2001: 1 Tier"),
    ("fr", "1 ancêtre connu ; 1 autre, plus loin, n'est pas dessiné.", "2001: 1 animal"),
])  # fmt: skip
def test_one_is_counted(desk: Desk, language: str, tree: str, trend: str) -> None:
    """One animal is told in the singular, in each language."""
    desk.take("id,sex,born,sire,dam\na,M,2001,,\nb,,2003,a,\nc,,2005,b,\n")
    desk.good("pedigree", "c", "--generations", "1", "--language", language, "--out", "tree.svg")
    assert tree in words_of(desk, "tree.svg")
    desk.good("trend", "--language", language)
    assert trend in tips_of(desk, "book/trend.svg")


@pytest.mark.parametrize(("language", "tree", "trend"), [
    ("en", "0 known ancestors.", "1 animal by birth year; 1 more has no known birth year and isn't drawn."),
    ("de", "0 bekannte Ahnen.",
     "1 Tier nach Geburtsjahr; 1 weiteres hat kein bekanntes Geburtsjahr und ist nicht gezeichnet."),
    ("fr", "0 ancêtre connu.",
     "1 animal par année de naissance ; 1 autre, sans année de naissance connue, n'est pas dessiné."),
])  # fmt: skip
def test_none_is_counted(desk: Desk, language: str, tree: str, trend: str) -> None:
    """No ancestor is told in the plural, but in French, and one year that isn't known in the singular."""
    desk.take("id,sex,born,sire,dam\na,M,2001,,\nb,M,,,\n")
    desk.good("pedigree", "a", "--language", language, "--out", "tree.svg")
    desk.good("trend", "--language", language)
    assert tree in words_of(desk, "tree.svg")
    assert trend in words_of(desk, "book/trend.svg")


ODD_IDS = ["<b>&amp;\"'", "</td>", "]]>", "a,b;c", "100 %", "é\u0301", "\U0001f404"]


@pytest.fixture
def odd_desk(desk: Desk) -> Desk:
    """A desk with a book of odd ids, the first the sire of the others."""
    rows = [
        {
            "id": id, "name": f"<i>{id}&", "sex": "MF"[at % 2], "born": f"200{at}", "sire": ODD_IDS[0] if at else "",
            "dam": "", "owner": f"&{id}",
        }
        for at, id in enumerate(ODD_IDS)
    ]  # fmt: skip
    desk.take(sheet_text(rows, ","))
    return desk


def test_escaped_list(odd_desk: Desk) -> None:
    assert [row["id"] for row in odd_desk.listed("list")] == ODD_IDS


@pytest.mark.parametrize("id", ODD_IDS)
def test_escaped(odd_desk: Desk, id: str) -> None:
    """Whatever a sheet has in its cells, pages and pictures are well-formed and show it."""
    odd_desk.good("certificate", id, "--force", "--out", "page.html", "--title", "<&>")
    assert id in words_of(odd_desk, "page.html")
    odd_desk.good("pedigree", id, "--out", "page.svg")
    assert id in words_of(odd_desk, "page.svg")


WORDS = {
    "en": [
        "Certificate of pedigree", "Coefficient of inbreeding", "Sire's dam", "Owner since", "(inferred)",
        "(inferred): not known for certain", "An unknown parent counts",
    ],
    "de": [
        "Abstammungsnachweis", "Inzuchtkoeffizient", "Vatersmutter", "Besitzer seit", "(erschlossen)",
        "(erschlossen): nicht sicher bekannt", "Unbekannte Eltern gelten",
    ],
    "fr": [
        "Certificat généalogique", "Coefficient de consanguinité", "Mère du père", "Propriétaire depuis", "(déduit)",
        "(déduit) : non connu avec", "Un parent inconnu n'est",
    ],
}  # fmt: skip
ENGLISH = {
    "Sire", "Dam", "Born", "Left", "Owner", "unknown", "inferred", "male", "female", "Number", "Pedigree", "society",
    "the",
}  # fmt: skip
# how days and percentages are written
FORMS = {
    "en": (r"\d{4}-\d\d-\d\d", r"\d\.\d+%"),
    "de": (r"\d\d\.\d\d\.\d{4}", r"\d,\d+\u00a0%"),
    "fr": (r"\d\d/\d\d/\d{4}", r"\d,\d+\u202f%"),
}


def certificate_in(desk: Desk, id: str, language: str) -> tuple[str, str]:
    """All words of a certificate, and those of its body."""
    desk.good("certificate", id, "--language", language, "--force", "--out", "page.html")
    page = desk.page("page.html")
    assert page.get("lang") == language
    body = next(part for part in page if part.tag.endswith("body"))
    return " ".join(page.itertext()), " ".join(body.itertext())


def undated_calf(her: Secretary) -> str:
    return next(row["Ohrmarke"] for row in her.rows if row["Mutter"] == her.undated)


@pytest.mark.parametrize("language", WORDS)
def test_certificate_in_a_language(secretary: Secretary, secretary_desk: Desk, language: str) -> None:
    """A certificate has the words of its language and no other's, and writes days and percentages so."""
    text, body = certificate_in(secretary_desk, undated_calf(secretary), language)
    assert [word for word in WORDS[language] if word not in text] == []
    for one, (day, percent) in FORMS.items():
        has = re.search(day, body) and re.search(percent, body)
        assert bool(has) == (one == language), f"days and percentages as in {one}: {body}"
    assert language == "en" or not ENGLISH & set(re.findall(r"[^\W\d_]{3,}", body))


def numbers_in(text: str) -> list[str]:
    """The ids, days and numbers of a text, days and decimals as English writes them."""
    text = re.sub(r"\b(\d\d)[./](\d\d)[./](\d{4})\b", r"\3-\2-\1", text)
    text = re.sub(r"(\d),(\d+)", r"\1.\2", text)
    return re.findall(r"[A-Z]{6}[MF]\d{12}|[A-Z]+-\d\d/\d+|\d{4}-\d\d-\d\d|\d+/\d+|\d+\.\d+", text)


def test_numbers_in_all_languages(secretary: Secretary, secretary_desk: Desk) -> None:
    """A certificate has the same ids, days and numbers in each language."""
    calf = undated_calf(secretary)
    english, *others = [numbers_in(certificate_in(secretary_desk, calf, language)[1]) for language in WORDS]
    assert others == [english, english]
    assert len(english) > 20


def test_title_and_another_language(secretary: Secretary, secretary_desk: Desk) -> None:
    desk, calf = secretary_desk, undated_calf(secretary)
    desk.good("certificate", calf, "--language", "de", "--title", "Zuchtbescheinigung", "--force", "--out", "page.html")
    assert "Zuchtbescheinigung" in desk.text("page.html")
    desk.wrong("--language: 'it' is none of en, de, fr", "certificate", calf, "--language", "it")


def test_invented_in_german(desk: Desk) -> None:
    desk.good("import", "--pedigree", desk.write("one.txt", "x 0 0\n"))
    desk.good("certificate", "x", "--out", "x.html", "--language", "de")
    words = words_of(desk, "x.html")
    assert words.count(" (erfunden)") == 2
    assert "(erfunden): die Abstammung hat weder" in words
