"""The look at a sheet with columns beside that of the owners says what a terminal does, in three languages."""
from __future__ import annotations

import re

import pytest

from web.looks import Says, look_at, part
from web.site import Site, shown
from gudokeyi.domain.settings import LANGUAGES

ROWS = "1;Huber;Leo;Huber;2010;;\n2;;;Meier;2010;;\n3;Huber;Rita;Huber;2010;;\n"


@pytest.mark.parametrize("language", LANGUAGES)
def test_first_names_and_keepers(empty_site: Site, language: str) -> None:
    """Both columns of an owner's names are read, nobody is asked whether the second is kept; a keeper is told."""
    empty_site.get(f"/language/{language}")
    _, page = look_at(empty_site, "Id;Besitzer;Vorname;Halter;geb;Vater;Mutter\n" + ROWS)
    titles = [shown(one) for one in re.findall(r'<th scope="col">(.*?)</th>', page, re.DOTALL)]
    owner = Says(language)("Owner")
    assert {f"Besitzer{owner}", f"Vorname{owner}"} <= {one.replace(" ", "") for one in titles}
    assert 'value="Halter"' in page and 'value="Vorname"' not in page
    told = shown(part(page, "May be wrong", language))
    assert "Halter" in told and "Meier" in told and ("no owner is taken from there" in told) == (language == "en")


@pytest.mark.parametrize("language", LANGUAGES)
def test_first_names_that_are_not_read(empty_site: Site, language: str) -> None:
    """An owner beside several of them is told first."""
    empty_site.get(f"/language/{language}")
    rows = "1;Huber;Ulm;Leo;2010;;\n2;;Ulm;Eva;2010;;\n3;Huber;Ulm;Rita;2010;3;\n"
    _, page = look_at(empty_site, "Id;Besitzer;Ort;Vorname;geb;Vater;Mutter\n" + rows)
    told = shown(part(page, "May be wrong", language))
    assert told.index("Leo") < told.index("Rita") and ("stands beside" in told) == (language == "en")
