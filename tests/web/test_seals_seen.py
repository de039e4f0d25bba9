"""Seals in Chromium, in each language: a keeper publishes the seal of now, and somebody checks a file under it. Of a
file that is refused nothing is shown. What was written anew since a seal was published is told with it."""
from __future__ import annotations

import datetime
import io

import pytest
from selenium import webdriver
from werkzeug.test import TestResponse

from web.said import SENTENCES
from web.screen import Screen
from web.server import Server
from web.site import HOST, Site, shown
from front_desk.desk import Desk
from gudokeyi.domain.animals import SocietyRecord
from gudokeyi.domain.seals import CheckAdvice, SealFault
from gudokeyi.domain.settings import LANGUAGES
from gudokeyi.render.page_language import PageLanguage
from gudokeyi.services.book_program import BookProgram
from gudokeyi.services.seals import SealedCertificate, sealed_certificate
from gudokeyi.store.book import Book
from gudokeyi.web import certificate_work

ANIMAL = "GK-17/472c"
TITLE = "document.querySelector('h1').innerText"
PUBLISH = '//form[@class="line"][contains(@action, "/seals")]//button'
CHECK = '//form[contains(@action, "/seals/check")]//button'
# that it is accepted, what wasn't checked, that another one isn't, and why
WORDS = {
    "en": (
        "The certificate is accepted", "Whether the society wrote the truth.", "The certificate isn't accepted",
        "the first line of the file isn't that of a certificate",
    ),
    "de": (
        "Der Nachweis ist angenommen", "Ob der Verband die Wahrheit geschrieben hat.",
        "Der Nachweis ist nicht angenommen", "die erste Zeile der Datei ist nicht die eines Nachweises",
    ),
    "fr": (
        "Le certificat est accepté", "Si l'association a écrit la vérité.", "Le certificat n'est pas accepté",
        "la première ligne du fichier n'est pas celle d'un certificat",
    ),
}  # fmt: skip
# that the journal was written anew since a seal was published
ANEW = {
    "en": (
        "the journal was written anew since {}, by change 3: of the 503 commands of edition 1 that were sealed the "
        "book has the first 502 now"
    ),
    "de": (
        "Das Journal wurde am {} neu geschrieben, durch Änderung 3: von den 503 gesiegelten Vorgängen der Ausgabe 1 hat "
        "das Herdbuch jetzt die ersten 502."
    ),
    "fr": (
        "Le journal a été réécrit le {}, par la modification 3 : des 503 commandes scellées de "
        "l'édition 1 le livre a maintenant les 502 premières."
    ),
}


@pytest.mark.parametrize("language", WORDS)
def test_seals(chromium: webdriver.Chrome, society_desk: Desk, language: str) -> None:
    accepted, unchecked, not_accepted, why = WORDS[language]
    server = Server(society_desk.room, society_desk.program)
    screen = Screen(chromium, server.base)
    screen.opens(server.link)
    screen.opens(f"/language/{language}?to=/seals")
    screen.leaves_by(PUBLISH)
    seal = society_desk.good("seal", "--published").out.strip().split(",")[-1]
    screen.sees(seal)
    society_desk.good("sealed", ANIMAL, "--out", "c.txt")
    checks(screen, society_desk, "c.txt", seal)
    screen.is_shown(TITLE, accepted)
    screen.sees(unchecked)
    screen.sees(society_desk.numbers()[ANIMAL])
    society_desk.write("d.txt", "secret," + society_desk.text("c.txt"))
    checks(screen, society_desk, "d.txt", seal)
    screen.sees(not_accepted)
    screen.sees(why)
    screen.is_shown("document.body.innerText.includes('secret')", False)


def test_written_anew(society_desk: Desk, site: Site) -> None:
    """The page says of a seal whether its journal was written anew, since when and by which change; so does the page of
    a certificate under it, which is accepted as before."""
    society_desk.good("seal", "--publish")
    society_desk.good("birth", "new", "--sex", "f", "--day", "2024-01-01", "--owner", "Huber")
    seal = society_desk.good("seal", "--publish").out.strip().split(",")[-1]
    certificate = society_desk.good("sealed", "new").out.encode()
    before = site.page("/seals")
    society_desk.good("undo")
    for language, told in ANEW.items():
        site.get(f"/language/{language}")
        told = told.format(PageLanguage(language).day(datetime.date.today()))
        assert told not in shown(before) and shown(site.page("/seals")).count(told) == 1
        assert told in shown(checked(site, certificate, seal).get_data(as_text=True))


def test_kept(society_desk: Desk, site: Site, monkeypatch: pytest.MonkeyPatch) -> None:
    """A certificate is made once of a state of the book, and under a seal that is published once for all of them."""
    made = list[str]()

    def count(book: Book, program: BookProgram, animal: SocietyRecord) -> SealedCertificate:
        made.append(animal.id)
        return sealed_certificate(book, program, animal)

    monkeypatch.setattr(certificate_work, "sealed_certificate", count)
    path = f"/animal/{society_desk.numbers()[ANIMAL]}/certificate.txt"
    for times, do in (1, None), (2, ("birth", "new")), (3, ("seal", "--publish")), (3, ("birth", "newer")):
        if do:
            more = ("--sex", "f", "--day", "2024-01-01", "--owner", "Huber") if do[0] == "birth" else ()
            society_desk.good(*do, *more)
        for _ in range(2):
            assert site.page(path).encode() == society_desk.good("sealed", ANIMAL).out.encode()
        assert made == [ANIMAL] * times


def test_refused(society_desk: Desk, site: Site) -> None:
    """What is wrong with a file or a seal is told in each language, with what to do, and nothing of the file."""
    line = society_desk.good("seal", "--publish").out.strip()
    seal = line.split(",")[-1]
    text = society_desk.good("sealed", ANIMAL).out.encode()
    for at, language in enumerate(LANGUAGES):
        site.get(f"/language/{language}")
        for file, given, message in [
            (b"", seal, CheckAdvice.EMPTY),
            (b"secret", seal, CheckAdvice.OTHER_FILE),
            (b"\xef\xbb\xbf" + text, seal, CheckAdvice.EDITED),
            (text, "f" * 64, CheckAdvice.OTHER_SEAL),
            (text.replace(b",1998-", b",1999-", 1), f" {seal.upper()}", CheckAdvice.CHANGED),
            (text, seal[:8] + seal[-8:], SealFault.NO_SEAL),
            (text, "O" + seal[1:], SealFault.NO_DIGIT),
        ]:
            answer = checked(site, file, given)
            page, told = shown(answer.get_data(as_text=True)), SENTENCES[message][at] or message.value
            assert answer.status_code == 400 and told.format(count=16, letter="o") in page and "secret" not in page
            assert (WORDS[language][2] in page) == isinstance(message, CheckAdvice)
        for given in seal.upper(), f" {seal[:40]}\r\n{seal[40:]} ", line:
            assert checked(site, text, given).status_code == 200


def checked(site: Site, file: bytes, seal: str) -> TestResponse:
    data = {"csrf_token": site.token(), "seal": seal, "certificate": (io.BytesIO(file), "c.txt")}
    return site.client.post("/seals/check", data=data, headers={"Host": HOST})


def checks(screen: Screen, desk: Desk, file: str, seal: str) -> None:
    screen.opens("/seals")
    screen.does('//input[@type="file"]', lambda field: field.send_keys(str(desk.room / file)))
    screen.writes('//input[@name="seal"]', seal)
    screen.leaves_by(CHECK)
