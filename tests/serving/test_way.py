"""By which names and through which proxy the server is asked."""
from __future__ import annotations

import pytest

from web.site import HOST, PORT, shown
from web.test_desk_security import writing
from gudokeyi.domain.messages import Mistake
from gudokeyi.web.addresses import ListenAddress, ServerAddress, listen_address, server_address
from gudokeyi.web.logins import FREE_BY_ADDRESS
from serving.visitor import Served, Visitor

PROXY = "10.0.0.2"
BY_PROXY = {"Host": "herd.example", "X-Forwarded-For": "1.2.3.4", "X-Forwarded-Proto": "https"}


@pytest.mark.parametrize(
    "host", ["", "evil.example", f"evil.example:{PORT}", "127.0.0.1", f"{HOST}.evil.example", f"{HOST}@evil"]
)
def test_hosts(served: Served, clerk: Visitor, host: str) -> None:
    """A name that another site has made for this address isn't answered, nor does a page lead there."""
    for path in "/", "/login", "/static/desk.css":
        answer = clerk.client.get(path, headers={"Host": host})
        assert answer.status_code == 400 and "This server isn't asked by this name." in shown(
            answer.get_data(as_text=True)
        )
        assert "Location" not in answer.headers


@pytest.mark.parametrize(
    "headers",
    [
        {"Origin": "http://evil.example"}, {"Origin": "null"}, {"Origin": f"https://{HOST}"}, {"Origin": ""},
        {"Sec-Fetch-Site": "cross-site"}, {"Sec-Fetch-Site": "same-site"},
    ],
)  # fmt: skip
def test_origins(served: Served, headers: dict[str, str]) -> None:
    """No page of another site sends a form of this one, the one to log in among them."""
    keeper = Visitor(served, "Kim")
    for address in writing(keeper):
        assert keeper.sends(address, headers, name="Carl", role="keeper").status_code == 403, address
    assert keeper.is_in()


def test_tokens(served: Served) -> None:
    """A form without the token of this server's own pages does nothing, nor with that of somebody else."""
    keeper, other = Visitor(served, "Kim"), Visitor(served, "Clara")
    for address in writing(keeper):
        for token in "", "x", other.token():
            answer = keeper.client.post(address, data={"csrf_token": token}, headers={"Host": HOST})
            assert answer.status_code == 400, address
            assert "The form is too old: open the page anew, and send it again." in shown(answer.get_data(as_text=True))


def test_headers(served: Served, clerk: Visitor) -> None:
    """Whatever is answered, to whomever, allows no scripts within pages, no guessing of types and no frames."""
    for visitor in clerk, Visitor(served):
        for address in ("/", "/login", "/animals.csv", "/nothing", "/book.sqlite", "/accounts", "/static/desk.css"):
            headers = visitor.get(address).headers
            policy = headers["Content-Security-Policy"]
            assert "default-src 'none'" in policy and "unsafe" not in policy and "frame-ancestors 'none'" in policy
            assert headers["X-Content-Type-Options"] == "nosniff" and headers["X-Frame-Options"] == "DENY"
            assert headers["Cache-Control"] == "no-store" or "static" in address


def test_proxy(proxied: Served) -> None:
    """What a proxy says of a request is believed of the proxy alone, and of that what it wrote itself."""
    proxy, stranger = Visitor(proxied, address=PROXY), Visitor(proxied, address="10.0.0.3")
    assert proxy.client.get("/login", headers=BY_PROXY).status_code == 200
    assert stranger.client.get("/login", headers=BY_PROXY).status_code == 403
    for scheme in "http", "https, http", "http, https", "":
        assert proxy.client.get("/login", headers=BY_PROXY | {"X-Forwarded-Proto": scheme}).status_code == 403
    for missing in BY_PROXY:
        headers = {name: value for name, value in BY_PROXY.items() if name != missing}
        assert proxy.client.get("/login", headers=headers).status_code in (400, 403), missing
    assert proxy.client.get("/login", headers=BY_PROXY | {"X-Forwarded-For": "evil"}).status_code == 403
    # a server of both protocols sees the proxy's address otherwise
    assert Visitor(proxied, address=f"::ffff:{PROXY}").client.get("/login", headers=BY_PROXY).status_code == 200
    # a browser may send such a header too: the proxy writes behind it
    proxied.log.truncate(0)
    proxy.client.get(
        "/login", headers=BY_PROXY | {"X-Forwarded-For": "9.9.9.9, 1.2.3.4", "X-Forwarded-Host": "evil.example"}
    )
    assert " 1.2.3.4 - GET /login 200" in proxied.log.getvalue() and "9.9.9.9" not in proxied.log.getvalue()
    location = proxy.client.get("/", headers=BY_PROXY | {"X-Forwarded-Host": "evil.example"}).headers["Location"]
    assert location == "/login?to=%2F"
    origin = BY_PROXY | {"Origin": "https://herd.example"}
    assert proxy.client.post("/login", headers=origin).status_code == 400
    assert proxy.client.post("/login", headers=origin | {"Origin": "http://herd.example"}).status_code == 403


def test_guesses_by_mapped_addresses(proxied: Served) -> None:
    """A proxy that listens for both protocols writes addresses of IPv4 as ones of IPv6: they are no one network."""
    proxy, base = Visitor(proxied, address=PROXY), "https://herd.example"
    page = proxy.client.get("/login", headers=BY_PROXY, base_url=base).get_data(as_text=True)
    form = {"csrf_token": page.partition('name="csrf_token" value="')[2].partition('"')[0], "name": "nobody", "password": "x"}
    for guess in range(FREE_BY_ADDRESS + 1):
        proxied.gate.throttle.tried(f"name {guess}", "1.2.3.4", False)
    for address, status in ("1.2.3.4", 429), ("::ffff:1.2.3.4", 429), ("::ffff:1.2.3.5", 401):
        headers = BY_PROXY | {"X-Forwarded-For": address}
        assert proxy.client.post("/login", data=form, headers=headers, base_url=base).status_code == status
    assert " 1.2.3.5 - POST /login 401 " in proxied.log.getvalue()


def test_without_proxy(served: Served) -> None:
    """Without a proxy nobody is believed where he comes from."""
    visitor = Visitor(served, address="10.0.0.3")
    visitor.get("/login", {"X-Forwarded-For": "127.0.0.1", "Forwarded": "for=127.0.0.1", "X-Real-IP": "127.0.0.1"})
    assert " 10.0.0.3 - GET /login 200" in served.log.getvalue()


def test_places() -> None:
    """An address with a port is read, with the names by which browsers may ask there."""
    assert listen_address("127.0.0.1:8080") == ListenAddress("127.0.0.1", 8080) and listen_address(
        "[::1]:80"
    ) == ListenAddress("::1", 80)
    for wrong in (
        "",
        "8080",
        "localhost:80",
        "127.0.0.1",
        "127.0.0.1:",
        "127.0.0.1:65536",
        "127.0.0.1:-1",
        "1.2.3:4",
        "::1",
    ):
        with pytest.raises(Mistake, match="isn't an address and a port"):
            listen_address(wrong)
    assert server_address(listen_address("127.0.0.1:80"), [], "") == ServerAddress(("127.0.0.1:80", "localhost:80"))
    assert server_address(listen_address("192.0.2.1:80"), ["Herd"], "") == ServerAddress(("192.0.2.1:80", "herd"))
    assert server_address(listen_address("0.0.0.0:80"), ["herd.example"], "") == ServerAddress(("herd.example",))
    assert server_address(listen_address("127.0.0.1:80"), ["herd.example"], PROXY) == ServerAddress(
        ("herd.example",), PROXY
    )
    for place, proxy in ("0.0.0.0:80", ""), ("[::]:80", ""), ("127.0.0.1:80", PROXY):
        with pytest.raises(Mistake, match="by which name"):
            server_address(listen_address(place), [], proxy)
    with pytest.raises(Mistake, match="isn't the address of a proxy"):
        server_address(listen_address("127.0.0.1:80"), ["herd.example"], "localhost")
    with pytest.raises(Mistake, match="can't be a name"):
        server_address(listen_address("127.0.0.1:80"), ["evil/name"], "")
