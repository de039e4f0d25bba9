"""The society's picture on its certificates: read and written anew, so that nothing but its points remains, and refused
where it is none."""
from __future__ import annotations

import io
import re
import sqlite3
import zlib
from typing import Any

import pytest
from PIL import Image
from PIL.PngImagePlugin import PngInfo
from werkzeug.test import TestResponse

from front_desk.desk import Desk
from gudokeyi.domain.mistakes import InvalidValue
from gudokeyi.domain.settings import JPEG, PNG
from gudokeyi.ingest.pictures import MOST_BYTES, picture_read
from web.site import HOST, Site, shown

# what a file hides of who made it
HIDDEN = b"Wilhelmine"
# turned by a quarter, as cameras say it
TURNED = 6
NUMBER = "HOLGBRM000000000402"


def picture_of(width: int, height: int, kind: str, mode: str = "RGB") -> bytes:
    """A file with a red corner, and with things that aren't its points."""
    image, file, exif, text = Image.new(mode, (width, height)), io.BytesIO(), Image.Exif(), PngInfo()
    if mode == "RGB":
        image.paste((250, 0, 0), (0, 0, width // 2, height // 2))
    exif[0x010F], exif[0x0112] = HIDDEN.decode(), TURNED if width < height else 1
    text.add_text("Author", HIDDEN.decode())
    more: dict[str, Any] = {"exif": exif, "comment": HIDDEN} if kind == "JPEG" else {"pnginfo": text}
    image.save(file, kind, icc_profile=HIDDEN, **more)
    return file.getvalue() + HIDDEN


@pytest.mark.parametrize(("kind", "mode", "media_type"), [
    ("PNG", "RGB", PNG), ("PNG", "RGBA", PNG), ("PNG", "P", PNG), ("PNG", "I;16", PNG), ("PNG", "1", PNG),
    ("JPEG", "RGB", JPEG), ("JPEG", "L", JPEG), ("JPEG", "CMYK", JPEG),
])  # fmt: skip
def test_written_anew(kind: str, mode: str, media_type: str) -> None:
    file = picture_of(1600, 400, kind, mode)
    assert HIDDEN in file
    found = picture_read(file)
    assert (found.media_type, found.width, found.height) == (media_type, 800, 200)
    assert HIDDEN not in found.file and found.file != file
    with Image.open(io.BytesIO(found.file)) as image:
        assert image.size == (800, 200) and image.mode in ("RGB", "RGBA") and not {*image.info} & {"icc_profile", "exif"}


def test_upright() -> None:
    """A picture that a camera says to be turned is turned, and small ones stay as large as they are."""
    found = picture_read(picture_of(30, 40, "JPEG"))
    assert (found.width, found.height) == (40, 30)
    with Image.open(io.BytesIO(found.file)) as image:
        # what was in the left corner above is in the right one
        red = [image.getpixel(place)[0] > 200 for place in ((2, 2), (37, 2), (2, 27), (37, 27))]
    assert red == [False, True, False, False]


def bomb() -> bytes:
    """A PNG of a few letters that says it has many points."""
    head = b"IHDR" + (60_000).to_bytes(4, "big") * 2 + bytes([8, 2, 0, 0, 0])
    parts = [head, b"IDAT" + zlib.compress(bytes(1_000)), b"IEND"]
    chunks = ((len(one) - 4).to_bytes(4, "big") + one + zlib.crc32(one).to_bytes(4, "big") for one in parts)
    return b"\x89PNG\r\n\x1a\n" + b"".join(chunks)


def gif() -> bytes:
    file = io.BytesIO()
    Image.new("P", (9, 9)).save(file, "GIF")
    return file.getvalue()


@pytest.mark.parametrize(("file", "told"), [
    (b"", "the picture is missing"), (b"<svg onload='x()'/>", "can't be read"), (gif(), "can't be read"),
    (picture_of(90, 90, "PNG")[:70], "can't be read"), (picture_of(90, 90, "JPEG")[:400], "can't be read"),
    (bomb(), "more than 20 million points"), (b"\xff\xd8" + bytes(MOST_BYTES), "more than 1 MB"),
])  # fmt: skip
def test_refused(file: bytes, told: str) -> None:
    with pytest.raises(InvalidValue, match=told):
        picture_read(file)


def send(site: Site, file: bytes, **fields: str) -> TestResponse:
    data = {"csrf_token": site.token(), "picture": (io.BytesIO(file), "bild.png"), **fields}
    return site.client.post("/settings/picture", data=data, headers={"Host": HOST})


def test_pages(site: Site, society_desk: Desk) -> None:
    """It is kept, shown on certificates with breed, breeder and signature, refused with the settings left, and
    removed."""
    site.get("/language/de")
    assert site.get("/settings/picture").status_code == 404
    assert send(site, picture_of(90, 60, "PNG")).status_code == 302
    kept = site.get("/settings/picture")
    assert kept.mimetype == PNG and HIDDEN not in kept.get_data() and kept.headers["X-Content-Type-Options"] == "nosniff"
    wrong = send(site, b"<svg/>")
    assert wrong.status_code == 400 and "nicht als Bild lesbar" in shown(wrong.get_data(as_text=True))
    assert send(site, b"\xff\xd8" + bytes(MOST_BYTES)).status_code == 400
    assert send(site, bytes(3 * MOST_BYTES)).status_code == 413
    assert site.get("/settings/picture").get_data() == kept.get_data()
    site.post("/settings", **{"breed-name": "Bunte Edelziege"})
    page = site.page(f"/animal/{NUMBER}/certificate")
    assert 'href="/settings/picture"' in page and page.count('<use href="#picture"/>') == 1
    assert "Rasse Bunte Edelziege" in words_of(page) and "Unterschrift" in words_of(page)
    # what the society itself says of the breeder stands in place of what the book finds
    assert words_of(page).count("Züchter") == 2
    site.post("/own-columns", **{"title-new": "Züchter", "kind-new": "text", "certified-new": "1"})
    site.post(f"/animal/{NUMBER}/own", **{"own-1": "Hof am Bach"})
    page = site.page(f"/animal/{NUMBER}/certificate")
    assert words_of(page).count("Züchter") == 1 and "Züchter Hof am Bach" in words_of(page)
    society_desk.good("certificate", "--living", "--out", "all.html")
    text = society_desk.text("all.html")
    assert text.count("data:image/png;base64,") == 1 and text.count('<use href="#picture"/>') == text.count("<main>") > 9
    assert send(site, b"", remove="1").status_code == 302
    assert "#picture" not in site.page(f"/animal/{NUMBER}/certificate")
    with sqlite3.connect(society_desk.room / "book/book.sqlite") as connection:
        assert connection.execute("SELECT count(*) FROM picture").fetchone() == (0,)


def words_of(page: str) -> str:
    return " ".join(re.sub(r"<style>.*?</style>|<[^>]*>", " ", page, flags=re.DOTALL).split())
