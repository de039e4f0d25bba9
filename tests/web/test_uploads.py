"""Files as they are kept between their dropping and their taking: how large, how long, and where."""
from __future__ import annotations

import io
import pathlib
import time

import pytest
from werkzeug.datastructures import FileStorage

from web.site import HOST, Site, shown
from gudokeyi.web import files

FLOCK = b"Tag,Geschlecht,geb\na,m,2001-01-01\n"


def test_too_large(empty_site: Site) -> None:
    data = {"csrf_token": empty_site.token(), "sheet": (io.BytesIO(b"x" * 51_000_000), "large.csv")}
    answer = empty_site.client.post("/sheet", data=data, headers={"Host": HOST})
    assert answer.status_code == 413 and "The file is too large: 50 MB are read at most." in shown(
        answer.get_data(as_text=True)
    )
    assert not any(empty_site.desk.uploads.room.iterdir())


def test_an_hour(empty_site: Site, monkeypatch: pytest.MonkeyPatch) -> None:
    """A file that isn't taken goes after an hour, and of very many the oldest go."""
    site = empty_site
    first = site.drop("flock.csv", FLOCK)
    monkeypatch.setattr(files, "MOST", 3)
    for _ in range(3):
        last = site.drop("flock.csv", FLOCK)
    assert site.get(first).status_code == 404
    assert site.get(last).status_code == 200
    now = time.monotonic()
    monkeypatch.setattr(time, "monotonic", lambda: now + files.SECONDS - 60)
    assert site.get(last).status_code == 200
    monkeypatch.setattr(time, "monotonic", lambda: now + files.SECONDS + 60)
    assert site.get(last).status_code == 404
    assert not any(site.desk.uploads.room.iterdir())


def test_disk_full(site: Site, monkeypatch: pytest.MonkeyPatch) -> None:
    """A drop for which the disk has no room is told, and leaves nothing."""

    def full(*_: object) -> None:
        raise OSError(28, "No space left on device")

    monkeypatch.setattr("werkzeug.datastructures.FileStorage.save", full)
    data = {"csrf_token": site.token(), "sheet": (io.BytesIO(FLOCK), "flock.csv")}
    answer = site.client.post("/sheet", data=data, headers={"Host": HOST})
    assert answer.status_code == 400 and "no room on the disk" in shown(answer.get_data(as_text=True))
    assert not any(site.desk.uploads.room.iterdir())


@pytest.mark.parametrize("name", ["..", "", "../flock.csv", "{other}/flock.csv"])
def test_odd_names(tmp_path: pathlib.Path, monkeypatch: pytest.MonkeyPatch, name: str) -> None:
    """Were a name cut badly, its file would lie in the folder made for it all the same, and only that one ever goes."""
    other = tmp_path / "other"
    other.mkdir()
    monkeypatch.setattr(files, "harmless", lambda _: name.format(other=other))
    dropped = files.Uploads(tmp_path)
    one = dropped.add(FileStorage(io.BytesIO(FLOCK), "flock.csv"), "Kim")
    assert one.path == tmp_path / one.token / files.NAMELESS and one.path.read_bytes() == FLOCK
    one.path = other / "flock.csv"
    dropped.drop(one.token)
    assert list(tmp_path.iterdir()) == [other]


@pytest.mark.parametrize("language, told", [
    ("en", "flock.csv has 2,001 columns with {} letters in their titles, and a page shows 2,000 columns"),
    ("de", "flock.csv hat 2.001 Spalten mit {} Buchstaben in ihren Titeln, und eine Seite zeigt höchstens 2.000"),
])  # fmt: skip
def test_very_many_columns(empty_site: Site, language: str, told: str) -> None:
    """A page has no more columns than can be chosen from; of just so many it comes soon."""
    empty_site.get(f"/language/{language}")
    titles = ["Tag", "Geschlecht", "geb", *(f"c{at}" for at in range(1_997))]
    began = time.monotonic()
    text = empty_site.page(empty_site.drop("flock.csv", ",".join(titles).encode() + b"\na,m,2001-01-01\n"))
    assert text.count("<option>c1996</option>") > 5 and time.monotonic() - began < 20
    titles.append("one more")
    text = empty_site.page(empty_site.drop("flock.csv", ",".join(titles).encode() + b"\na,m,2001-01-01\n"))
    letters = f"{sum(map(len, titles)):,}".replace(",", "," if language == "en" else ".")
    assert told.format(letters) in shown(text) and "c1996" not in text


def test_long_titles(empty_site: Site) -> None:
    """Nor of longer titles altogether."""
    titles = ["Tag", "Geschlecht", "geb", *(f"{at}".ljust(9_000, "x") for at in range(12))]
    text = empty_site.page(empty_site.drop("flock.csv", ",".join(titles).encode() + b"\na,m,2001-01-01\n"))
    assert "flock.csv has 15 columns with 108,016 letters in their titles" in shown(text) and len(text) < 100_000
