"""What happened in a year, as a page and as CSV for the umbrella society."""
from __future__ import annotations

from front_desk.desk import Desk
from web.site import Site, shown

DAM, SIRE = "GK-17/472c", "GK-10/294b"


def test_year(site: Site, society_desk: Desk) -> None:
    """Births, exits and new owners of its days alone, each with what the umbrella society asks for."""
    site.get("/language/de")
    site.post("/file/birth", id="NEW-1", sex="F", day="2024-03-01", sire=SIRE, dam=DAM, owner="Oak Lodge", name="Berta")
    site.post("/file/transfer", id="NEW-1", day="2024-05-01", to="Hof am See")
    site.post("/file/exit", id=DAM, day="2024-12-31")
    site.post("/file/exit", id="NEW-1", day="2025-01-01")
    page = shown(site.page("/year?year=2024"))
    for text in ("Das Jahr 2024", "01.03.2024 NEW-1 Berta weiblich GK-10/294b GK-17/472c", "Abgänge 1", "31.12.2024 GK-17/472c",
                 "01.05.2024 NEW-1 Berta weiblich Oak Lodge Hof am See"):  # fmt: skip
        assert text in page, text
    answer = site.get("/year/2024.csv")
    lines = answer.get_data(as_text=True).splitlines()
    assert "attachment; filename=year-2024.csv" in answer.headers["Content-Disposition"]
    number = lines[1].split(";")[3]
    assert lines[1] == f"2024-03-01;Geburt;NEW-1;{number};Berta;F;2024-03-01;{SIRE};{DAM};;Oak Lodge;;"
    assert lines[2].startswith("2024-05-01;Besitzerwechsel;NEW-1;") and lines[2].endswith(";Oak Lodge;Hof am See;;")
    assert lines[3].startswith(f"2024-12-31;Abgang;{DAM};") and len(lines) == 4
    assert site.get("/year/9999").status_code == 400
    society_desk.good("year", "2024", "--out", "year.csv")
    assert [row["what"] for row in society_desk.table("year.csv")] == ["birth", "transfer", "exit"]


HORSES = (
    "id;Name;Geschlecht;Geburt;Vater;Mutter;Abgang;Abgangsgrund\na;Arko;m;2010-02-21;;;14.03.2023;geschlachtet\n"
    "b;Bella;w;2011-06-05;;;2.11.2023;\nc;Cora;w;2011-06-05;;;;\nd;Dora;w;2011-06-05;;;3.11.2023;=Kolik\n"
)


def test_reasons(empty_site: Site, desk: Desk) -> None:
    """An exit has the sheet's word beside it, and what was filed before that."""
    desk.take(HORSES, "--breed", "SKU", "--country", "DEU")
    desk.good("correct", "d", "--reason", "died")
    desk.good("exit", "c", "--day", "2023-12-01", "--reason", "sold")
    exits = [(row["id"], row["reason"], row["exit_in_sheet"]) for row in desk.listed("year", "2023")]
    assert exits == [("a", "", "geschlachtet"), ("b", "", ""), ("d", "died", "'=Kolik"), ("c", "sold", "")]
    for language, title, said in (
        ("en", "exit_in_sheet", "died (in the sheet: =Kolik)"),
        ("de", "Abgang in der Tabelle", "verendet (in der Tabelle: =Kolik)"),
        ("fr", "Sortie dans le tableau", "mort (dans le tableau : =Kolik)"),
    ):  # fmt: skip
        empty_site.get(f"/language/{language}")
        page = shown(empty_site.page("/year/2023"))
        assert said in page and "geschlachtet" in page, page
        lines = empty_site.get("/year/2023.csv").get_data(as_text=True).splitlines()
        assert lines[0].endswith(title) and lines[1].endswith("geschlachtet")
