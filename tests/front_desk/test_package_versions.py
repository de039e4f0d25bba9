"""The packages that parts of the front desk need, as they are seen without what takes long to import."""
from __future__ import annotations

import importlib.metadata
import pathlib
import sys
import tomllib

import pytest

from gudokeyi import packages
from gudokeyi.packages import PROJECT, Group, requirements, requirements_in, version_seen, version_told


def told(package: str) -> str | None:
    try:
        return importlib.metadata.version(package)
    except importlib.metadata.PackageNotFoundError:
        return None


@pytest.mark.parametrize("group", list(Group))
def test_of_project(group: Group) -> None:
    """The project's file is read as TOML has it, and each version as Python tells it."""
    project = tomllib.loads(PROJECT.read_text(encoding="utf-8"))
    texts, names = project["project"]["optional-dependencies"][group], project["tool"]["gudokeyi"]["debian"]
    assert requirements(group) == [packages.requirement(text, names) for text in texts]
    for one in requirements(group):
        assert (version_seen(one.package) or None) == told(one.package) == version_told(one.package)


@pytest.mark.parametrize(
    "name, version",
    [
        ("Some_Package-2.10.1.dist-info", "2.10.1"),
        ("some.package-3.0rc1-py3.11.egg-info", "3.0rc1"),
        ("some_package_more-4.0.dist-info", ""),
        ("some_package-4.0", ""),
    ],
)
def test_seen(tmp_path: pathlib.Path, monkeypatch: pytest.MonkeyPatch, name: str, version: str) -> None:
    """The version stands in the name, however its signs are written; the first place of the path counts."""
    (tmp_path / name).mkdir()
    later = tmp_path / "later"
    (later / "some_package-9.dist-info").mkdir(parents=True)
    monkeypatch.setattr(sys, "path", [str(tmp_path / "none"), str(tmp_path)])
    assert version_seen("some-package") == version
    monkeypatch.setattr(sys, "path", [str(tmp_path), str(later)])
    assert version_seen("some-package") == (version or "9")
    assert version_told("a-package-that-is-not-there") is None


def test_installed(tmp_path: pathlib.Path, monkeypatch: pytest.MonkeyPatch) -> None:
    """Beside an installed package stands what it requires."""
    told = tmp_path / "gudokeyi-1.dist-info" / "METADATA"
    told.parent.mkdir()
    told.write_text(
        'Name: gudokeyi\nRequires-Dist: Jinja2 >=3.1,<4 ; extra == "pages"\n'
        "Requires-Dist: openpyxl >=3.0.9,<4 ; extra == 'workbooks'\n\nThe front desk.\n",
        encoding="utf-8",
    )
    monkeypatch.setattr(packages, "PROJECT", tmp_path / "pyproject.toml")
    monkeypatch.setattr(packages, "__file__", str(tmp_path / "gudokeyi" / "packages.py"))
    assert [one.text() for one in requirements(Group.PAGES)] == ["Jinja2>=3.1,<4"]
    assert [one.text() for one in requirements(Group.WORKBOOKS)] == ["openpyxl>=3.0.9,<4"]


def test_no_group() -> None:
    with pytest.raises(AssertionError, match="no group pages"):
        requirements_in("[project.optional-dependencies]\n", Group.PAGES)
