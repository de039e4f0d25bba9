"""Templates as Python that is kept in the caches of who asks."""
from __future__ import annotations

import io
import os
import pathlib

import jinja2
import pytest
from jinja2.bccache import Bucket

from gudokeyi.render.drawing import KeptTemplates


def kept(source: str) -> tuple[KeptTemplates, Bucket]:
    """A template that a call kept."""
    environment, templates = jinja2.Environment(), KeptTemplates()
    bucket = Bucket(environment, f"{source}{'0' * 40}", source)
    bucket.code = environment.compile(source)
    templates.dump_bytecode(bucket)
    return templates, Bucket(environment, bucket.key, source)


def test_kept(tmp_path: pathlib.Path, monkeypatch: pytest.MonkeyPatch) -> None:
    """It is found again by who kept it, and no file that others may have written is run."""
    monkeypatch.setenv("XDG_CACHE_HOME", str(tmp_path))
    templates, bucket = kept("one")
    templates.load_bytecode(bucket)
    assert bucket.code is not None
    path = templates.file(bucket)
    assert path.stat().st_mode & 0o777 == 0o600 and jinja2.__version__ in path.name
    for mode in 0o620, 0o602:
        os.chmod(path, mode)
        bucket.reset()
        templates.load_bytecode(bucket)
        assert bucket.code is None


def test_of_others(tmp_path: pathlib.Path, monkeypatch: pytest.MonkeyPatch) -> None:
    monkeypatch.setenv("XDG_CACHE_HOME", str(tmp_path))
    templates, bucket = kept("two")
    monkeypatch.setattr(os, "getuid", lambda: os.geteuid() + 1)
    templates.load_bytecode(bucket)
    assert bucket.code is None


@pytest.mark.parametrize("damage", [b"", b"no template", b"cut"])
def test_damaged(tmp_path: pathlib.Path, monkeypatch: pytest.MonkeyPatch, damage: bytes) -> None:
    """A file that is no template, or a part of one, is made anew."""
    monkeypatch.setenv("XDG_CACHE_HOME", str(tmp_path))
    templates, bucket = kept("three")
    path = templates.file(bucket)
    path.write_bytes(path.read_bytes()[:-20] if damage == b"cut" else damage)
    templates.load_bytecode(bucket)
    assert bucket.code is None


def test_another_template(tmp_path: pathlib.Path, monkeypatch: pytest.MonkeyPatch) -> None:
    """One that has changed since isn't taken as it was."""
    monkeypatch.setenv("XDG_CACHE_HOME", str(tmp_path))
    templates, bucket = kept("four")
    changed = Bucket(bucket.environment, bucket.key, "changed")
    templates.load_bytecode(changed)
    assert changed.code is None
    with pytest.raises(TypeError):
        bucket.write_bytecode(io.BytesIO())
