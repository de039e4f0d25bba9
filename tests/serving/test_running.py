"""The examples for whoever sets a server up: the unit for systemd, and the proxy."""
from __future__ import annotations

import itertools
import os
import pathlib
import re
import shutil
import signal
import socket
import subprocess

import pytest

from web.server import SECONDS, Running, free_port
from front_desk.desk import TOP, Desk
from gudokeyi.domain.people import AccountRole
from gudokeyi.store.accounts import Accounts
from gudokeyi.web.forms import new_form
from serving.visitor import WORD

EXAMPLES = TOP / "examples/serving"
UNIT = (EXAMPLES / "herdbook.service").read_text(encoding="utf-8")
NAME = "herdbook.example.org"


def started_as_unit(desk: Desk, port: int, name: str = NAME) -> Running:
    """What the unit starts, with a folder, a port and a name of the test's own."""
    Accounts(desk.room / "book").add("Kim", AccountRole.KEEPER, WORD, WORD)
    begun = re.search(r"^ExecStart=(.*)$", UNIT, re.MULTILINE)
    assert begun
    own = {
        "/usr/bin/gudokeyi": str(TOP / "gudokeyi"),
        "/srv/herdbook": str(desk.room / "book"),
        "127.0.0.1:8080": f"127.0.0.1:{port}",
        NAME: name,
    }
    words = begun[1].split()
    for before, after in own.items():
        assert any(before in word for word in words)
        words = [word.replace(before, after) for word in words]
    server = Running(desk.room, desk.program, words)
    assert server.said == f"The desk answers at https://{name}/; Ctrl-C or SIGTERM ends it.\n"
    return server


def test_unit(society_desk: Desk, cheap: None) -> None:
    """The unit's command serves the book to its proxy alone, and ends by SIGTERM, which goes to the server alone."""
    server = started_as_unit(society_desk, port := free_port())
    with socket.create_connection(("127.0.0.1", port), timeout=SECONDS) as connection:
        connection.sendall(f"GET / HTTP/1.0\r\nHost: {NAME}\r\n\r\n".encode())
        assert connection.recv(4096).startswith(b"HTTP/1.0 403")
    assert server.end(signal.SIGTERM) == "The desk is closed.\n"
    assert "KillMode=mixed" in UNIT and "User=herdbook" in UNIT


def test_backups_by_a_clock_that_is_behind(society_desk: Desk, cheap: None, tmp_path: pathlib.Path) -> None:
    """What was written last stays, though the names of enough others say that they are newer."""
    book, folder = society_desk.room / "book", tmp_path / "copies"
    Accounts(book).add("Kim", AccountRole.KEEPER, WORD, WORD)
    folder.mkdir()
    for kind, at in itertools.product(("book", "accounts"), range(3)):
        (folder / f"{kind}-2999010{at}T000000Z.sqlite").write_bytes(b"of a clock that was ahead")
    env = {"PATH": f"{TOP}:{os.environ['PATH']}", "HERDBOOK": society_desk.program, "HOME": str(tmp_path)}
    subprocess.run([str(TOP / "packaging/backup"), str(book), str(folder), "2"], env=env, timeout=SECONDS, check=True)
    kept = sorted(path.name for path in folder.iterdir())
    assert [name.partition("-")[0] for name in kept if "-2999" not in name] == ["accounts", "book"] and len(kept) == 6


@pytest.mark.slow
def test_unit_as_systemd_reads_it(tmp_path: pathlib.Path) -> None:
    """systemd finds nothing to say about the unit, and little that it leaves open."""
    unit = tmp_path / "herdbook.service"
    unit.write_text(
        UNIT.replace("/usr/bin/gudokeyi", str(TOP / "gudokeyi")).replace("User=herdbook", "User=www-data"),
        encoding="utf-8",
    )
    # its page of the manual is there where the package is installed
    words = ["systemd-analyze", "verify", "--man=no", str(unit)]
    done = subprocess.run(words, capture_output=True, text=True, timeout=SECONDS)
    assert not [line for line in done.stderr.splitlines() if "herdbook.service" in line], done.stderr
    words = ["systemd-analyze", "security", "--offline=yes", "--threshold=35", str(unit)]
    done = subprocess.run(words, capture_output=True, text=True, timeout=SECONDS)
    assert done.returncode == 0, done.stdout


def curl(room: pathlib.Path, port: int, path: str, *words: str) -> str:
    """What a browser is answered by the proxy, with the headers."""
    waits = ["--retry", "60", "--retry-connrefused", "--resolve", f"{NAME}:{port}:127.0.0.1"]
    command = ["curl", "-sik", "-b", "cookies", "-c", "cookies", *waits, *words]
    return subprocess.run(
        [*command, f"https://{NAME}:{port}{path}"], cwd=room, capture_output=True, text=True, check=True
    ).stdout


def test_backups(society_desk: Desk, cheap: None, tmp_path: pathlib.Path) -> None:
    """The script writes the book and its accounts, keeps so many of each, and tells where it can't."""
    book, folder = society_desk.room / "book", tmp_path / "copies"
    Accounts(book).add("Kim", AccountRole.KEEPER, WORD, WORD)
    folder.mkdir()
    for at in range(3):
        for kind in "book", "accounts":
            (folder / f"{kind}-2020010{at}T000000Z.sqlite").write_bytes(b"old")
    (folder / "own.sqlite").write_bytes(b"of somebody else")
    env = {"PATH": f"{TOP}:{os.environ['PATH']}", "HERDBOOK": society_desk.program, "HOME": str(tmp_path)}
    words = [str(TOP / "packaging/backup"), str(book), str(folder), "2"]
    assert subprocess.run(words, env=env, timeout=SECONDS).returncode == 0
    names = sorted(path.name for path in folder.iterdir())
    kept = [name for name in names if "20200102" in name]
    assert kept == ["accounts-20200102T000000Z.sqlite", "book-20200102T000000Z.sqlite"] and len(names) == 5
    assert "own.sqlite" in names
    # on another machine
    new_accounts, new_book = (max(folder.glob(f"{kind}-*")) for kind in ("accounts", "book"))
    assert new_accounts.stat().st_mode & 0o077 == new_book.stat().st_mode & 0o077 == 0
    other = tmp_path / "other"
    other.mkdir()
    shutil.copy(new_accounts, other / "accounts.sqlite")
    society_desk.good("restore", str(new_book), "--anyway", "--book", str(other))
    assert Accounts(other).fits("Kim", WORD) and "is whole" in society_desk.good("verify", "--book", str(other)).out
    words[2] = str(tmp_path / "nowhere")
    done = subprocess.run(words, env=env, timeout=SECONDS, capture_output=True, text=True)
    assert done.returncode == 1 and "can't be written" in done.stderr


@pytest.mark.slow
def test_proxy(society_desk: Desk, cheap: None, tmp_path: pathlib.Path) -> None:
    """nginx as in the example: one logs in by https, and files; what is asked without it is sent there."""
    assert shutil.which("nginx") and shutil.which("openssl"), "as root `apt install nginx-light openssl` on Debian"
    port, inner, plain = free_port(), free_port(), free_port()
    made = [
        "openssl",
        "req",
        "-x509",
        "-newkey",
        "rsa:2048",
        "-nodes",
        "-keyout",
        "privkey.pem",
        "-out",
        "fullchain.pem",
    ]
    subprocess.run([*made, "-subj", f"/CN={NAME}", "-days", "2"], cwd=tmp_path, check=True, capture_output=True)
    text = (EXAMPLES / "nginx.conf").read_text(encoding="utf-8")
    own = {f"/etc/letsencrypt/live/{NAME}": str(tmp_path), "listen [::]": "# listen [::]", "127.0.0.1:8080": f"127.0.0.1:{inner}",
           "listen 443": f"listen 127.0.0.1:{port}", "listen 80": f"listen 127.0.0.1:{plain}"}  # fmt: skip
    for before, after in own.items():
        assert before in text
        text = text.replace(before, after)
    (tmp_path / "nginx.conf").write_text(
        f"daemon off; pid {tmp_path}/pid; error_log {tmp_path}/errors; events {{}}\nhttp {{ access_log off; {text} }}\n"
    )
    # browsers say the port where it isn't the usual one
    server = started_as_unit(society_desk, inner, f"{NAME}:{port}")
    proxy = subprocess.Popen(
        ["nginx", "-p", str(tmp_path), "-c", str(tmp_path / "nginx.conf"), "-e", str(tmp_path / "errors")]
    )
    try:
        page = curl(tmp_path, port, "/login")
        assert f"__Host-herdbook-{port}=" in page and "Secure" in page
        assert "strict-transport-security: max-age=86400" in page.lower()
        token = page.partition('name="csrf_token" value="')[2].partition('"')[0]
        origin = f"Origin: https://{NAME}:{port}"
        words = [
            "-H",
            origin,
            "--data-urlencode",
            f"csrf_token={token}",
            "-d",
            "name=Kim",
            "--data-urlencode",
            f"password={WORD}",
        ]
        assert "302" in curl(tmp_path, port, "/login", *words).splitlines()[0]
        page = curl(tmp_path, port, "/settings")
        token = page.partition('name="csrf_token" value="')[2].partition('"')[0]
        form = ["-d", f"csrf_token={token}", "-d", f"form={new_form()}", "-d", "id=GK-17/472c", "-d", "day=2024-05-01"]
        assert "location: /answer/2" in curl(tmp_path, port, "/file/exit", "-H", origin, *form).lower()
        assert (
            " 403 " in curl(tmp_path, port, "/file/exit", "-H", "Origin: https://evil.example", *form).splitlines()[0]
        )
        plainly = subprocess.run(
            ["curl", "-si", "-H", f"Host: {NAME}", f"http://127.0.0.1:{plain}/"], capture_output=True, text=True
        )
        assert " 301 " in plainly.stdout.splitlines()[0] and f"https://{NAME}/" in plainly.stdout
        # certbot's own address leads nowhere else
        shown = subprocess.run(
            ["curl", "-si", "-H", f"Host: {NAME}", f"http://127.0.0.1:{plain}/.well-known/acme-challenge/x"],
            capture_output=True, text=True,
        )  # fmt: skip
        assert " 404 " in shown.stdout.splitlines()[0]
    finally:
        server.end(signal.SIGTERM)
        page = curl(tmp_path, port, "/", "--retry", "0")
        proxy.send_signal(signal.SIGTERM)
        assert proxy.wait(SECONDS) == 0
    assert " 503" in page.splitlines()[0] and "retry-after: 60" in page.lower() and "load this page again" in page
    society_desk.good("verify")
