"""The way on which browsers reach the server, its address and names, and a proxy before it; and where a page leads back
to: to this server alone."""
from __future__ import annotations

import ipaddress
import re
from dataclasses import dataclass

from flask import abort, request

from gudokeyi.domain.messages import Mistake

# The way on which browsers reach the server: its address and names, and a proxy before it.

LAST_PORT = 65_535
# what a proxy says of the request that it hands on
FOR, PROTOCOL = "X-Forwarded-For", "X-Forwarded-Proto"


@dataclass(frozen=True, slots=True)
class ListenAddress:
    """An address of this machine and a port."""

    address: str
    port: int

    @property
    def is_loopback(self) -> bool:
        return ipaddress.ip_address(self.address).is_loopback

    @property
    def is_any(self) -> bool:
        """All addresses of the machine, of which none is a name for browsers."""
        return ipaddress.ip_address(self.address).is_unspecified

    def text(self) -> str:
        return f"[{self.address}]:{self.port}" if ":" in self.address else f"{self.address}:{self.port}"


def listen_address(text: str) -> ListenAddress:
    """That of a text as `127.0.0.1:8080` or `[::1]:8080`."""
    address, colon, port = text.rpartition(":")
    try:
        found = ipaddress.ip_address(address.removeprefix("[").removesuffix("]"))
        number = int(port) if port.isascii() and port.isdecimal() else -1
    except ValueError:
        number = -1
    if not colon or not 0 <= number <= LAST_PORT:
        raise Mistake(f"'{text}' isn't an address and a port: write one as 127.0.0.1:8080")
    return ListenAddress(str(found), number)


@dataclass(frozen=True, slots=True)
class ServerAddress:
    """`hosts` are the names by which browsers ask, with their ports; `proxy` is the address of the one that stands
    before the server and has the certificate, empty where there is none."""

    hosts: tuple[str, ...]
    proxy: str = ""

    @property
    def scheme(self) -> str:
        return "https" if self.proxy else "http"

    @property
    def cookie(self) -> str:
        """The name of its cookies, which browsers keep for all ports of a host together. Where a proxy has a
        certificate they take one of this name only from this server, and only in secret."""
        port = re.search(r":(\d+)$", self.hosts[0])
        return ("__Host-" if self.proxy else "") + "herdbook" + (f"-{port[1]}" if port else "")

    def client(self) -> str:
        """The address of who asks. What a proxy says of it is believed of the proxy alone, and of what it says only
        what it wrote itself, which stands last."""
        peer = plain_address(request.remote_addr or "")
        if not self.proxy:
            return peer
        if peer != plain_address(self.proxy):
            abort(403, "not by proxy")
        told = ",".join(request.headers.getlist(FOR)).rpartition(",")[2].strip()
        try:
            return plain_address(str(ipaddress.ip_address(told)))
        except ValueError:
            return abort(403, "not by proxy")

    def origin(self) -> str:
        """As which the server is asked, by one of its names; behind a proxy in secret."""
        if self.proxy and request.headers.getlist(PROTOCOL) != ["https"]:
            abort(403, "not secret")
        host = request.headers.get("Host", "").lower()
        if host not in self.hosts:
            abort(400, "host")
        return f"{self.scheme}://{host}"


def plain_address(text: str) -> str:
    """An address as it is written otherwise too: one of IPv4 as a server of IPv6 sees it is that one."""
    try:
        found = ipaddress.ip_address(text)
    except ValueError:
        return text
    return str((found.ipv4_mapped or found) if isinstance(found, ipaddress.IPv6Address) else found)


def refuse_no_address(proxy: str) -> None:
    """A mistake where a proxy isn't named by an address, of which alone its headers are believed."""
    try:
        ipaddress.ip_address(proxy)
    except ValueError:
        raise Mistake(f"'{proxy}' isn't the address of a proxy: write one as 127.0.0.1") from None


def server_address(place: ListenAddress, names: list[str], proxy: str) -> ServerAddress:
    """A mistake where it isn't known by which name browsers ask, or which proxy does."""
    if proxy:
        refuse_no_address(proxy)
    for name in names:
        if not re.fullmatch(r"[a-z0-9.-]+(:\d+)?|\[[0-9a-f:]+\](:\d+)?", name.lower()):
            raise Mistake(f"'{name}' can't be a name of a server: write one as herdbook.example.org")
    if not names and (proxy or place.is_any):
        raise Mistake("by which name do browsers ask this server? Say it, as --name herdbook.example.org")
    own = [] if proxy or place.is_any else [place.text()]
    if place.is_loopback and not proxy:
        own.append(f"localhost:{place.port}")
    return ServerAddress(tuple(name.lower() for name in (*own, *names)), proxy)


# Where a page leads back to: to this server alone.


def is_safe_redirect(to: str) -> bool:
    """Is it a path on this server, and nothing that a browser would take for another one?"""
    return to.startswith("/") and not to.startswith("//") and "\\" not in to and to.isprintable()
