"""Each desk signs cookies and forms with a secret of its own, which nobody guesses: those of another desk are
refused."""
from __future__ import annotations

import pathlib
from collections.abc import Iterator

import pytest

from web.server import Server
from web.site import HOST, PORT, SECRET, Site, form_in, shown, site_of
from front_desk.desk import Desk

COOKIE, OTHER = f"desk-{PORT}", "another secret"


@pytest.fixture
def other_site(society_desk: Desk, program: str, tmp_path: pathlib.Path) -> Iterator[Site]:
    """Another desk of the same book, at the same port, as after it was opened again."""
    with site_of(society_desk.room / "book", program, tmp_path / "other", secret=OTHER) as found:
        yield found


def cookie_of(site: Site, secret: str) -> str:
    """That of a browser that comes by the link."""
    return site.get(f"/enter/{secret}").headers["Set-Cookie"].partition(";")[0]


def test_cookies_of_another_desk(site: Site, other_site: Site) -> None:
    """Whoever came by a link to one desk isn't in at another."""
    stranger = other_site.app.test_client(use_cookies=False)
    for cookie, status in (cookie_of(other_site, OTHER), 200), (cookie_of(site, SECRET), 403):
        assert cookie.startswith(f"{COOKIE}=")
        assert stranger.get("/", headers={"Host": HOST, "Cookie": cookie}).status_code == status


def test_forms_of_another_desk(site: Site, other_site: Site) -> None:
    """A form's token is signed: who knows what it is made of, and lacks the secret, makes none."""
    of_other = other_site.token()
    site.token()
    for one in site, other_site:
        with one.client.session_transaction(base_url=f"http://{HOST}") as session:
            session["csrf_token"] = "0" * 40
    assert other_site.token() != of_other
    data = {"csrf_token": other_site.token(), "name": "Mine"}
    answer = site.client.post("/settings", data=data, headers={"Host": HOST})
    assert answer.status_code == 400 and "The form is too old: open the page anew, and send it again." in shown(
        answer.get_data(as_text=True)
    )
    assert "Mine" not in site.page("/settings")
    assert site.post("/settings", name="Mine").status_code == 302 and "Mine" in site.page("/settings")


def test_links(society_desk: Desk) -> None:
    """Each time a desk is opened its link has another secret, of more letters than anybody tries."""
    secrets = set[str]()
    for _ in range(2):
        server = Server(society_desk.room, society_desk.program, "--read-only")
        secrets.add(server.link.rpartition("/")[2])
        server.end()
    assert len(secrets) == 2 and min(map(len, secrets)) >= 32


def test_forms_differ(site: Site) -> None:
    """A form that is shown again is another one, which is filed too."""
    forms = {form_in(site.page("/file/birth")) for _ in range(20)}
    assert len(forms) == 20 and min(map(len, forms)) >= 20
