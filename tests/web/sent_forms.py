"""Forms of pages: what their fields have, and what is sent of them."""
from __future__ import annotations

import html
import re


def written_in(page: str) -> dict[str, str]:
    """What the fields of a page's form have."""
    found = {}
    for field in re.findall(r"<input [^>]*>", page):
        name, value = (re.search(rf'{what}="([^"]*)"', field) for what in ("name", "value"))
        if name and value and ('type="radio"' not in field and 'type="checkbox"' not in field or " checked" in field):
            found[name[1]] = html.unescape(value[1])
    return found


def corrected(form: dict[str, str], **fields: str) -> dict[str, str]:
    """What is sent of a form in which fields were written."""
    return {name: text for name, text in {**form, **fields}.items() if name != "csrf_token"}
