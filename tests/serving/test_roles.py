"""Who may ask for what: the table is made of the application's own routes, so that a new one needs a rule."""
from __future__ import annotations

import re

import pytest
from werkzeug.routing import Rule

from web.site import HOST, shown
from web.test_desk_security import address_of
from gudokeyi.domain.people import AccountRole
from gudokeyi.web.access import LEAST, OPEN_TO_ALL
from serving.visitor import PEOPLE, Served, Visitor

# what nobody but a keeper may do, and what somebody may change who files nothing
KEEPERS = {
    "history.ask_undo", "history.bring_back", "settings.change", "settings.change_picture", "accounts.page",
    "accounts.add", "accounts.change",
    "accounts.ask_removal", "accounts.remove",
    "restoring.page", "restoring.drop", "restoring.look", "restoring.bring_back", "restoring.under_way",
    "folder.page", "folder.choose", "folder.close", "seals.publish",
    "history.ask_take_back", "history.take_it_back", "owners.merge", "owners.ask_erase", "owners.erase",
    "own_columns.change",
}  # fmt: skip
# what nobody does who only reads
CLERKS = {
    "sheet.page", "sheet.drop", "sheet.drop_example", "sheet.look", "sheet.choose", "sheet.keep",
    "sheet.take_suggestion", "sheet.take",
    "sheet.taking", "sheet.leave", "history.backup", "filing.page", "filing.form", "filing.file",
    "correcting.form", "correcting.correct", "litters.form", "litters.file", "notes.form", "notes.write",
    "owners.file", "owners.form", "owners.write", "own_columns.form", "own_columns.write",
}  # fmt: skip
# what is sent and writes nothing of the book
OWN = {"login.leave", "login.change_password", "seals.check", "work.stop"}


def asked(served: Served) -> list[tuple[Rule, str]]:
    """Each route of the application, by each of its ways."""
    return [
        (rule, method)
        for rule in served.app.url_map.iter_rules()
        for method in sorted((rule.methods or set()) - {"HEAD", "OPTIONS"})
    ]


def is_answered(visitor: Visitor, rule: Rule, method: str) -> bool:
    data = {"csrf_token": visitor.token()} if method == "POST" else None
    answer = visitor.client.open(address_of(rule), method=method, data=data, headers={"Host": HOST})
    assert answer.status_code < 500 and answer.status_code != 405, rule
    is_sent_to_login = answer.headers.get("Location", "").startswith("/login?")
    if answer.status_code == 403:
        assert "Your role doesn't allow this: ask a keeper of the book." in shown(answer.get_data(as_text=True))
    return answer.status_code not in (401, 403) and not is_sent_to_login


@pytest.mark.parametrize("name", ["", "Ines", "Carl", "Kim"])
def test_table(served: Served, name: str) -> None:
    """Each route is answered to whom its rule allows, and to nobody else; each has a rule."""
    for rule, method in asked(served):
        if rule.endpoint == "login.enter":
            continue
        least = LEAST.get(rule.endpoint)
        allowed = rule.endpoint in OPEN_TO_ALL or (name != "" and least is not None and PEOPLE[name].may(least))
        assert is_answered(Visitor(served, name), rule, method) == allowed, (rule, method, name)
        assert (least is None) == (rule.endpoint in OPEN_TO_ALL), f"{rule} has no rule"


def test_rules(served: Served) -> None:
    """Whatever writes wants a clerk at least, and some of it a keeper."""
    for rule, method in asked(served):
        if method == "POST" and rule.endpoint not in OWN and rule.endpoint not in OPEN_TO_ALL:
            assert LEAST[rule.endpoint].may(AccountRole.CLERK), rule
    for role, endpoints in (AccountRole.KEEPER, KEEPERS), (AccountRole.CLERK, CLERKS):
        assert {endpoint for endpoint, least in LEAST.items() if least is role} == endpoints


def test_without_rule(served: Served) -> None:
    """A page that got no rule is answered to nobody."""
    served.app.add_url_rule("/new", "new", lambda: "new")
    assert Visitor(served, "Kim").get("/new").status_code == 403


@pytest.mark.parametrize("name", PEOPLE)
def test_offered(served: Served, name: str) -> None:
    """Pages offer what somebody may do, and nothing else: each link and each form that they have is answered."""
    assert (
        Visitor(served, "Carl").post("/file/exit", id="GK-17/472c", day="2024-05-01").headers["Location"] == "/answer/2"
    )
    visitor = Visitor(served, name)
    addresses = [
        "/",
        "/answer/2",
        "/animals",
        "/animal/HOLGBRM000000000402",
        "/history",
        "/history/1",
        "/settings",
        "/matings",
        "/matings?dam=GK-16/433c",
        "/breed",
        "/seals",
    ]
    for address in addresses:
        page = visitor.page(address)
        found = set(re.findall(r'(?:href|action)="(/[^"#?]*)', page)) - {"/logout", "/static/desk.css"}
        for link in found:
            if not link.startswith(("/language", "/static")):
                assert visitor.get(link).status_code != 403, (address, link)
    offers = visitor.page("/history")
    assert ("/undo" in offers) == (name == "Kim")
    assert ('"/sheet"' in offers) == (name != "Ines")
