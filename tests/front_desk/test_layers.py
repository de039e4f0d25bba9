"""What the layers of the front desk import: no module one that stands above it, but for exceptions that only shrink."""
from __future__ import annotations

import ast
import pathlib
import re
from collections.abc import Iterator

import pytest

import gudokeyi

HERE = pathlib.Path(gudokeyi.__file__).resolve().parent
# from the bottom up; those that stand beside one another don't import each other
LAYERS = (
    {"background", "other_python", "process"},
    {"domain"},
    {"engine", "store", "genetics", "ingest", "packages"},
    {"reconcile"},
    {"services"},
    {"bounds", "locale"},
    {"render"},
    {"web"},
    # two of its words begin the pages
    {"cli"},
    {"start"},
)
HEIGHT = {part: height for height, parts in enumerate(LAYERS) for part in parts}
# the modules that import others above or beside them, each with the parts that these are in
EXCEPTIONS: dict[str, str] = {}


def imported(path: pathlib.Path) -> Iterator[str]:
    """The parts of the package that a module imports from, at its top or within, also for types alone. A relative
    import has no name here, so each is a part of none."""
    for node in ast.walk(ast.parse(path.read_text(encoding="utf-8"))):
        names = []
        if isinstance(node, ast.ImportFrom) and node.level:
            names = ["gudokeyi.relative"]
        elif isinstance(node, ast.ImportFrom):
            module = node.module or ""
            names = [f"gudokeyi.{alias.name}" for alias in node.names] if module == "gudokeyi" else [module]
        elif isinstance(node, ast.Import):
            names = [alias.name for alias in node.names]
        for name in names:
            package, _, rest = name.partition(".")
            if package == "gudokeyi" and rest:
                yield rest.partition(".")[0]


def found(top: pathlib.Path) -> dict[str, str]:
    """The modules of a package that import others above or beside them, or what is no part of it."""
    wrong: dict[str, str] = {}
    for path in sorted(top.rglob("*.py")):
        place = path.relative_to(top).with_suffix("")
        part = place.parts[0]
        if part == "__init__":
            continue
        others = {one for one in imported(path) if one != part and HEIGHT.get(one, len(LAYERS)) >= HEIGHT[part]}
        if others:
            wrong[".".join(place.parts)] = " ".join(sorted(others))
    return wrong


def test_parts() -> None:
    """Each part of the package has its place."""
    parts = {path.stem for path in HERE.iterdir() if path.suffix == ".py" or (path / "__init__.py").exists()}
    assert parts - {"__init__"} == HEIGHT.keys()


def test_direction() -> None:
    """An exception that is needed no more is to be taken away here."""
    assert found(HERE) == EXCEPTIONS


def write(path: pathlib.Path, text: str) -> pathlib.Path:
    path.parent.mkdir(parents=True, exist_ok=True)
    path.write_text(text, encoding="utf-8")
    return path


@pytest.mark.parametrize(
    "module, line, parts",
    [
        ("store/a.py", "from gudokeyi.services.book import Book", "services"),
        ("store/a.py", "import gudokeyi.engine.session", "engine"),
        ("domain/a.py", "def f():\n    from gudokeyi import render", "render"),
        ("domain/a.py", "from ..render import drawing", "relative"),
        ("render/a.py", "from gudokeyi.domain.days import DAY\nfrom gudokeyi.render.b import c", ""),
    ],
)
def test_direction_is_seen(tmp_path: pathlib.Path, module: str, line: str, parts: str) -> None:
    """Each way to write an import is seen."""
    write(tmp_path / module, line)
    assert found(tmp_path) == ({module.removesuffix(".py").replace("/", "."): parts} if parts else {})


# what begins or stands in statements of SQL alone
SQL = re.compile(
    r"\b(SELECT\s.+\sFROM|INSERT INTO|DELETE FROM|UPDATE \w+ SET|CREATE (TABLE|INDEX)|DROP (TABLE|INDEX)|ALTER TABLE|PRAGMA|"
    r"WITH RECURSIVE|BEGIN IMMEDIATE|ORDER BY|GROUP BY|LEFT JOIN|CROSS JOIN|IS (NOT )?NULL|json_each|iif\(|ifnull\()", re.DOTALL
)  # fmt: skip
CALLS = ("execute", "executemany", "executescript")


def sql_in(path: pathlib.Path) -> Iterator[str]:
    """The texts of a module that are SQL, and what asks a database, each with its line."""
    tree = ast.parse(path.read_text(encoding="utf-8"))
    for node in ast.walk(tree):
        if isinstance(node, ast.Constant) and isinstance(node.value, str) and SQL.search(node.value):
            yield f"{path.name}:{node.lineno}: {node.value[:60]}"
        if isinstance(node, ast.Attribute) and node.attr in CALLS:
            yield f"{path.name}:{node.lineno}: {node.attr}"


# what faces may import, beside what sets something of their process and says which packages are needed
OF_FACES = {"cli", "web", "services", "render", "domain", "bounds", "process", "background", "packages", "other_python"}


def past_services(top: pathlib.Path) -> dict[str, list[str]]:
    """The modules of faces that import what is below the use cases."""
    modules = [path for part in ("cli", "web") for path in (top / part).rglob("*.py")]
    wrong = {path.relative_to(top).as_posix(): sorted({*imported(path)} - OF_FACES) for path in modules}
    return {path: parts for path, parts in wrong.items() if parts}


def test_faces(tmp_path: pathlib.Path) -> None:
    """Terminal and pages have no way to a book but the use cases, and none to a text but what renders."""
    assert past_services(HERE) == {}
    write(tmp_path / "web/routes/a.py", "from gudokeyi.store.book import Book\nfrom gudokeyi.services.book import Book")
    write(tmp_path / "cli/words/b.py", "def f():\n    import gudokeyi.engine.session")
    assert past_services(tmp_path) == {"web/routes/a.py": ["store"], "cli/words/b.py": ["engine"]}


def sql_outside(top: pathlib.Path) -> list[str]:
    outside = [path for path in top.rglob("*.py") if path.relative_to(top).parts[0] != "store"]
    return [one for path in sorted(outside) for one in sql_in(path)]


def test_sql(tmp_path: pathlib.Path) -> None:
    """A database is asked in the store alone."""
    assert sql_outside(HERE) == []
    # that it would be found
    assert len([*sql_in(HERE / "store" / "counts.py")]) > 5
    write(tmp_path / "store/a.py", 'TEXT = "SELECT id FROM animal"')
    write(tmp_path / "services/b.py", 'TEXT = """select\nSELECT id\nFROM animal"""\nconnection.execute(TEXT)')
    assert [one.partition(": ")[0] for one in sql_outside(tmp_path)] == ["b.py:1", "b.py:4"]


def test_empty_book() -> None:
    """An empty book is a value: nobody asks whether there is a connection to one."""
    asked = re.compile(r"(book|self)\.connection is (not )?None")
    assert [path.name for path in HERE.rglob("*.py") if asked.search(path.read_text(encoding="utf-8"))] == []


# Pages name files of the package: each is there.

TOP = HERE.parents[1]
FILE = re.compile(r"`([\w*/]+\.(?:py|po|html|rt))`")


def files_named(text: str) -> Iterator[str]:
    """The files that a text names; one without a folder is in that of the one before it."""
    folder = ""
    for name in FILE.findall(text):
        before, _, own = name.rpartition("/")
        folder = before or folder
        yield f"{folder}/{own}"


def lost(text: str) -> list[str]:
    return [name for name in files_named(text) if not [*HERE.glob(name), *TOP.glob(name)]]


def test_files_of_the_page() -> None:
    """The part on the front desk names no file that isn't there, and its picture each layer that there is."""
    page = (TOP / "docs" / "ARCHITECTURE.md").read_text(encoding="utf-8")
    part = page.partition("\n## The front desk\n")[2].partition("\n## ")[0]
    assert len([*files_named(part)]) > 20 and lost(part) == []
    (picture,) = re.findall(r"\((pictures/.*?)\)", part)
    drawn = {*re.findall(r">(\w+)<", (TOP / "docs" / picture).read_text(encoding="utf-8"))}
    assert {name for layer in LAYERS for name in layer if (HERE / name / "__init__.py").exists()} <= drawn
    assert lost("`services/book.py`, `nothing.py`; `locale/*/LC_MESSAGES/messages.po`") == ["services/nothing.py"]


# What is read as text has the width of the code.

WIDTH = 120


def lines_of_texts(path: pathlib.Path) -> Iterator[int]:
    """The lines of a module's comments and docstrings."""
    text = path.read_text(encoding="utf-8")
    yield from (at for at, line in enumerate(text.splitlines(), 1) if line.lstrip().startswith("# "))
    for node in ast.walk(ast.parse(text)):
        if isinstance(node, ast.Module | ast.ClassDef | ast.FunctionDef) and ast.get_docstring(node):
            yield from range(node.body[0].lineno, (node.body[0].end_lineno or 0) + 1)


def wide(top: pathlib.Path) -> list[str]:
    found = []
    for path in sorted(top.rglob("*.py")):
        lines = path.read_text(encoding="utf-8").splitlines()
        found += [f"{path.name}:{at}" for at in lines_of_texts(path) if len(lines[at - 1]) > WIDTH]
    return found


def test_width(tmp_path: pathlib.Path) -> None:
    assert wide(HERE) == wide(TOP / "tests") == []
    write(tmp_path / "a.py", f'"""{"x" * WIDTH}"""\n# {"x" * WIDTH}\n')
    assert sorted(wide(tmp_path)) == ["a.py:1", "a.py:2"]
