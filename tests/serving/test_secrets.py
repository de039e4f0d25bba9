"""What neither the log, nor the page of a fault, nor the file of accounts has: passwords, tokens and what people
wrote."""
from __future__ import annotations

import re

import pytest

from web.site import HOST
from gudokeyi.domain.people import AccountRole
from serving.visitor import WORD, Served, Visitor


def test_log(served: Served) -> None:
    """The log has who asked for what, from where, and what was refused; it has no password, no token, and no text that
    somebody wrote."""
    visitor = Visitor(served, address="10.0.0.9")
    visitor.log_in("Carl", "my secret guess")
    visitor.log_in("my secret in the wrong field", "x")
    visitor.log_in("Carl")
    address = visitor.drop("sheet.csv", b"id,birth\nA,2001-01-01\n")
    visitor.get(address)
    visitor.post("/file/exit", id="no such animal", day="2001-01-01")
    visitor.get("/history/0/undo")
    visitor.get("/animals?words=looked-for\r\nforged line")
    with visitor.client.session_transaction(base_url=f"http://{HOST}") as session:
        tokens = [str(value) for value in session.values()]
    log = served.log.getvalue()
    lines = log.splitlines()
    assert any(
        line.endswith("10.0.0.9 - POST /login 401 refused login as Carl") or "refused login as Carl" in line
        for line in lines
    )
    assert any("refused login of an unknown name" in line for line in lines)
    assert any("10.0.0.9 Carl (clerk) POST /login 302" in line for line in lines)
    assert any("Carl (clerk) GET /sheet/<token> 200" in line for line in lines)
    assert any("Carl (clerk) GET /history/<number>/undo 403" in line and "refused role" in line for line in lines)
    # why something isn't done, by the sentence's name
    assert any("POST /file/<kind> 400" in line and line.endswith(" Naming.NO_ANIMAL") for line in lines)
    for secret in ("my secret", WORD, "looked-for", "forged", "no such animal", address.rpartition("/")[2], *tokens):
        assert secret == "True" or secret not in log, secret


def test_names_in_log(served: Served) -> None:
    """A name that looks like the rest of a line is told apart from it."""
    served.gate.accounts.add("Kim (keeper) GET /accounts 200", AccountRole.CLERK, WORD, WORD)
    visitor = Visitor(served, "Kim (keeper) GET /accounts 200")
    served.log.truncate(0)
    visitor.get("/animals")
    assert re.search(r" 127\.0\.0\.1 [^(]* \(clerk\) GET /animals 200 \d+ms$", served.log.getvalue().rstrip("\n"))


def test_faults(
    served: Served, clerk: Visitor, monkeypatch: pytest.MonkeyPatch, caplog: pytest.LogCaptureFixture
) -> None:
    """A fault's text and trace stand neither on the page nor in the log."""

    def fail(_: object) -> None:
        raise ValueError("what somebody wrote")

    monkeypatch.setattr("gudokeyi.web.routes.history.last_that_changed", fail)
    answer = clerk.get("/history")
    assert answer.status_code == 500 and "somebody wrote" not in answer.get_data(as_text=True)
    assert "Traceback" not in caplog.text and "somebody wrote" not in caplog.text
    assert "ValueError at" in caplog.text and "history.py:" in caplog.text


def test_file(served: Served) -> None:
    """The file of accounts is its owner's alone, has no password and no token, and no role that there isn't."""
    Visitor(served, "Carl")
    path = served.gate.accounts.path
    assert path.stat().st_mode & 0o777 == 0o600
    with Visitor(served, "Kim").client.session_transaction(base_url=f"http://{HOST}") as session:
        token = session["login"]
    # cookies are signed with its key
    assert served.app.config["SECRET_KEY"] == served.gate.accounts.key()
    assert WORD.encode() not in path.read_bytes() and token.encode() not in path.read_bytes()
    assert [(one.name, one.role) for one in served.gate.accounts.all()][1] == ("Clara", AccountRole.CLERK)
