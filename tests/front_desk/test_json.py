"""What words write with `--json`, held to the schemas that the package has for other programs."""
from __future__ import annotations

import contextlib
import csv
import json
import pathlib
import re
import sqlite3
from fractions import Fraction
from typing import Any

import pytest

import gudokeyi
from front_desk.desk import Desk
from gudokeyi.domain.schemas import schema_named
from gudokeyi.services.answers import SCHEMAS as SCHEMAS_OF_BOOKS
from gudokeyi.services.pedigree_answers import PEDIGREE_SCHEMAS

SCHEMAS = SCHEMAS_OF_BOOKS | PEDIGREE_SCHEMAS

HERE = pathlib.Path(gudokeyi.__file__).parent / "schemas"
TYPES: dict[str, type | tuple[type, ...]] = {
    "object": dict, "array": list, "string": str, "boolean": bool, "null": type(None), "number": (int, float),
    "integer": int,
}  # fmt: skip


def faults(value: Any, schema: dict[str, Any], place: str = "") -> list[str]:
    """Where a value isn't as a schema says, of the words that these schemas have."""
    if "anyOf" in schema:
        found = [faults(value, one, place) for one in schema["anyOf"]]
        return min(found, key=len)
    if "enum" in schema and value not in schema["enum"]:
        return [f"{place}: {value!r} is none of {schema['enum']}"]
    kind = schema.get("type")
    if kind and (not isinstance(value, TYPES[kind]) or (isinstance(value, bool) and kind != "boolean")):
        return [f"{place}: {value!r} is no {kind}"]
    if "pattern" in schema and not re.search(schema["pattern"], value):
        return [f"{place}: {value!r} isn't {schema['pattern']}"]
    if kind == "array":
        return [fault for at, one in enumerate(value) for fault in faults(one, schema["items"], f"{place}/{at}")]
    if kind == "object":
        properties, more = schema.get("properties", {}), schema.get("additionalProperties", {})
        lacks = [f"{place}: no {name}" for name in schema.get("required", []) if name not in value]
        beyond = [f"{place}: {name}" for name in value if more is False and name not in properties]
        its = ((name, one, properties.get(name, more or {})) for name, one in value.items())
        return lacks + beyond + [fault for name, one, of in its for fault in faults(one, of, f"{place}/{name}")]
    return []


def schema(name: str) -> dict[str, Any]:
    return dict(json.loads((HERE / f"{name}.json").read_text(encoding="utf-8")))


@pytest.mark.parametrize("name", SCHEMAS)
def test_schemas(name: str) -> None:
    """Each is what the kind of the answer makes of it, so that no field goes or comes unseen."""
    assert schema(name) == schema_named(name, SCHEMAS[name])
    assert {path.stem for path in HERE.glob("*.json")} == SCHEMAS.keys()


@pytest.mark.parametrize("words", [
    "list --living", "find GK-17", "export", "show GK-17/472c", "kinship GK-17/472c GK-10/294b",
    "certificate GK-17/472c", "mating --dam GK-17/472c GK-10/294b GK-17/472c", "history", "breed", "plan",
    "pedigree GK-17/472c", "trend",
])  # fmt: skip
def test_answers(society_desk: Desk, words: str) -> None:
    word, *others = words.split()
    found = json.loads(society_desk.good(word, *others, "--json").out)
    assert faults(found, schema(word)) == []
    # without a field that has to be there it isn't such a one
    found.pop(next(iter(schema(word)["required"])))
    assert faults(found, schema(word))


def test_files(society_desk: Desk) -> None:
    """Each word that has a file written has its JSON written there too, by the same ways; what shapes a table alone
    isn't passed over."""
    society_desk.write("dams.txt", "GK-17/472c\n")
    for words in (
        "list --living", "find GK-17", "export", "kinship GK-17/472c GK-10/294b", "certificate GK-17/472c",
        "mating --dam GK-17/472c GK-10/294b", "mating --dams dams.txt GK-10/294b", "plan --dams dams.txt", "breed",
        "pedigree GK-17/472c", "trend", "inverse",
    ):  # fmt: skip
        shown = society_desk.good(*words.split(), "--json").out
        done = society_desk.good(*words.split(), "--json", "--out", "answer.json", "--force")
        assert done.out == "answer.json: JSON, in one line\n" and society_desk.text("answer.json") == shown, words
    society_desk.wrong("answer.json is there already", "export", "--json", "--out", "answer.json")
    society_desk.wrong("is a file of the book", "list", "--json", "--out", "book/ids.csv", "--force")
    for words in (
        "list --columns id", "list --semicolons", "export --triples", "kinship GK-17/472c --matrix kinship",
        "mating --dams dams.txt --matrix", "plan --table", "breed --csv tables",
    ):  # fmt: skip
        option = words[words.rindex("--"):].partition(" ")[0]
        society_desk.wrong(f"--json writes no table: leave out {option}", *words.split(), "--json", "--out", "a.json")
    for option, word in (("--title", "A"), ("--day", "2014-01-01")):
        society_desk.wrong(f"no page: leave out {option}", "certificate", "GK-17/472c", option, word, "--json")
    society_desk.wrong("in English: leave out --language", "trend", "--language", "de", "--json")
    society_desk.wrong("--json has 3 generations", "certificate", "GK-17/472c", "--generations", "5", "--json")


def test_values(society_desk: Desk) -> None:
    """They are those that are listed; a refusal has its number, its name and its sentence."""
    listed = society_desk.listed("list")
    animals = json.loads(society_desk.good("list", "--json").out)["animals"]
    found = [(one["id"], one["registration_number"], one["born"], one["coefficient"]["fraction"]) for one in animals]
    assert found == [
        (row["id"], row["number"], row["birth"].removesuffix(" (inferred)"), row["coefficient"]) for row in listed
    ]
    done = society_desk.run("mating", "--dam", "GK-17/472c", "GK-17/472c", "--json")
    refused = json.loads(done.out)["refused"]["GK-17/472c"]
    assert done.status == 3 and refused == {"number": 3, "name": "SIRE_NOT_MALE", "sentence": "the sire isn't male"}


def test_pairs(society_desk: Desk) -> None:
    """Those of the table, in its order; who was passed over is named."""
    society_desk.write("dams.txt", "GK-17/472c\n")
    rows = society_desk.listed("mating", "--dams", "dams.txt")
    found = json.loads(society_desk.good("mating", "--dams", "dams.txt", "--json").out)
    assert faults(found, schema("matings")) == [] and found["refused"] == []
    assert [(one["dam"], one["sire"], one["coefficient"]["fraction"]) for one in found["matings"]] == [
        (row["dam"], row["sire"], row["coefficient"]) for row in rows
    ]
    society_desk.wrong("leave out --matrix", "mating", "--dams", "dams.txt", "--matrix", "--json")


def test_seals(society_desk: Desk) -> None:
    """That of now, the one that is published by it, and all that were."""
    now, published, these = (
        json.loads(society_desk.good("seal", *one.split(), "--json").out) for one in ("", "--publish", "--published")
    )
    assert [faults(one, schema("seal")) for one in (now, published, these)] == [[], [], []]
    assert published["seal"] == now and these == {"seals": [published]}
    digits, steps, animals = society_desk.good("seal").out.strip().split(",")
    assert now == {"digits": digits, "steps": int(steps), "animals": int(animals)}


def test_pedigree(society_desk: Desk) -> None:
    """Its ancestors are those of the certificate, and go on."""
    found = json.loads(society_desk.good("pedigree", "GK-17/472c", "--generations", "5", "--json").out)
    (certificate,) = json.loads(society_desk.good("certificate", "GK-17/472c", "--json").out)["certificates"]
    known = {way: one for way, one in certificate["ancestors"].items() if one}
    assert {way: one for way, one in found["ancestors"].items() if len(way) < 4} == known
    assert max(map(len, found["ancestors"])) == 5 and found["animal"] == certificate["animal"]


def test_changes_and_looks(flock_desk: Desk) -> None:
    """What a change did and told, a look at a sheet, the answers of `file`, and a book that isn't whole."""
    flock_desk.write("commands.jsonl", "\n".join([
        '{"request": "1", "kind": "birth", "id": "new", "sex": "f", "day": "2012-01-01", "dam": "a9"}',
        '{"request": "2", "kind": "birth", "id": "x", "sex": "f", "day": "2012-01-01", "dam": "a0"}',
        '{"request": "3", "kind": "litter", "day": "2012-01-01", "offspring": "l=f"}', '{"request": "4"}',
    ]))  # fmt: skip
    for line in flock_desk.run("file", "commands.jsonl").out.splitlines():
        assert faults(json.loads(line), schema("file")) == []
    for words, name in (
        (["history", "2"], "change"), (["import", "sheet.csv", "--preview"], "import"), (["show", "new"], "show"),
        (["verify"], "verify"),
    ):  # fmt: skip
        found = json.loads(flock_desk.good(*words, "--json").out)
        assert faults(found, schema(name)) == [], words
    flock_desk.wrong("say --preview too", "import", "sheet.csv", "--json")
    with contextlib.closing(sqlite3.connect(flock_desk.room / "book/book.sqlite")) as connection, connection:
        connection.execute("UPDATE coefficient SET percent = '1.00' WHERE place = 1")
    done = flock_desk.run("verify", "--json")
    assert done.status == 1 and json.loads(done.out)["is_whole"] is False and json.loads(done.out)["faults"]


# Mrode's animals, the youngest first
MRODE = "id sire dam\n6 5 2\n5 4 3\n4 1 0\n3 1 2\n2 0 0\n1 0 0\n"


@pytest.mark.parametrize("words", [
    "inbreeding p.txt", "relationships p.txt 5 6", "relationships p.txt 6 --with old.txt",
    "measures p.txt --among young.txt", "audit p.txt --against f.csv", "inverse p.txt",
])  # fmt: skip
def test_pedigree_files(desk: Desk, words: str) -> None:
    """Each is held to its schema, also as a file; a field that has to be there is missed."""
    for name, text in ("p.txt", MRODE), ("young.txt", "5\n6\n"), ("old.txt", "1\n2\n"), ("f.csv", "6,0.125\n5,0.13\n"):
        desk.write(name, text)
    word, *others = words.split()
    text = desk.good(word, *others, "--json").out
    found = json.loads(text)
    assert faults(found, schema(word)) == []
    if word != "audit":
        desk.good(word, *others, "--json", "--out", "answer.json")
        assert desk.text("answer.json") == text
        if word in ("relationships", "measures"):
            desk.wrong("leave out --semicolons", word, *others, "--json", "--semicolons")
    found.pop(next(iter(schema(word)["required"])))
    assert faults(found, schema(word))


def test_values_of_pedigree_files(desk: Desk) -> None:
    """They are those of the tables, exact; the status of an audit is that of its words."""
    desk.write("p.txt", MRODE)
    inbreeding = json.loads(desk.good("inbreeding", "p.txt", "--json").out)["animals"]
    table = [*csv.DictReader(desk.good("inbreeding", "p.txt").out.splitlines())]
    assert [(one["id"], *one["coefficient"].values()) for one in inbreeding] == [
        (row["id"], row["coefficient"], row["percent"]) for row in table
    ]
    pairs = json.loads(desk.good("relationships", "p.txt", "5", "6", "--json").out)["pairs"]
    assert [(*one.values(),) for one in pairs] == [("5", "5", "9/8"), ("5", "6", "11/16"), ("6", "6", "9/8")]
    desk.wrong("leave out --matrix", "relationships", "p.txt", "5", "--matrix", "kinship", "--json")
    desk.write("f.csv", "6,0.125\n5,0.25\n7,0\n")
    done = desk.run("audit", "p.txt", "--against", "f.csv", "--json")
    audit = json.loads(done.out)
    assert done.status == 3 and (audit["what"], audit["compared"], audit["same"]) == ("inbreeding", 2, 1)
    assert audit["differing"] == [{"line": 2, "ids": ["5"], "written": "0.25", "exact": "1/8"}]
    assert audit["absent"] == ["7"] and audit["untold"] == ["4", "3", "2", "1"]
    inverse = json.loads(desk.good("inverse", "p.txt", "--json").out)
    elements = {(one["row"], one["column"]): Fraction(one["value"]) for one in inverse["elements"]}
    diagonal = [elements[id, id] for id in inverse["ids"]]
    assert diagonal == [*map(Fraction, ("32/15", "38/15", "11/6", "5/2", "61/30", "11/6"))]


def test_inverse_of_a_book(flock_desk: Desk) -> None:
    """That of the book's animals is that of their pedigree by itself."""
    book = json.loads(flock_desk.good("inverse", "--json").out)
    assert faults(book, schema("inverse")) == []
    flock_desk.good("export", "--triples", "--out", "p.txt")
    alone = json.loads(flock_desk.good("inverse", "p.txt", "--unknown", "NA", "--json").out)
    assert alone["ids"] == book["ids"] and len(book["elements"]) > len(book["ids"])
    assert {(*one.values(),) for one in alone["elements"]} == {(*one.values(),) for one in book["elements"]}
    flock_desk.wrong("leave out --matrix-market", "inverse", "--json", "--matrix-market", "i.mtx")
    flock_desk.wrong("leave it out beside", "inverse", "--out", "i.mtx", "--matrix-market", "j.mtx")
    flock_desk.wrong("--matrix-market is of a book", "inverse", "p.txt", "--out", "i.mtx", "--matrix-market", "j.mtx")
