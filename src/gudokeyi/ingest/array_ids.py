"""Ids of lists, arrays and columns of data frames, as texts."""
from __future__ import annotations

from collections.abc import Iterable
from typing import Any

import numpy as np

from gudokeyi.domain.mistakes import InvalidValue
from gudokeyi.ingest.texts import composed

# the types of a value that isn't there
NOTHING = ("NAType", "NaTType", "NoneType")


def texts_of(name: str, values: Iterable[object]) -> list[str]:
    """Ids as they are compared; empty where there is none."""
    if isinstance(values, str) or not hasattr(values, "__iter__"):
        raise InvalidValue(f"{name}: {values!r} is one value: give a list, an array or a column of a data frame")
    listed: list[object] = values.tolist() if hasattr(values, "tolist") else [*values]
    kinds = {*map(type, listed)}
    if kinds <= {int}:
        return [*map(str, listed)]
    if kinds <= {str}:
        texts = [str(value).strip() for value in listed]
    else:
        most = most_exact(getattr(values, "dtype", None))
        texts = [text_of(name, value, most) for value in listed]
    return texts if "".join(texts).isascii() else [*map(composed, texts)]


def most_exact(kind: object) -> int:
    """Below this number the floating point numbers of an array, or Python's, have each whole number."""
    floating: Any = kind if isinstance(kind, np.dtype) and kind.kind == "f" else np.float64
    return 1 << (int(np.finfo(floating).nmant) + 1)


def text_of(name: str, value: object, most: int) -> str:
    if isinstance(value, str):
        return value.strip()
    if type(value).__name__ in NOTHING or value != value:
        return ""
    if isinstance(value, float | np.floating) and value.is_integer():
        whole = int(value)
        # it may have been another number before it was rounded
        if abs(whole) >= (most_exact(value.dtype) if isinstance(value, np.floating) else most):
            raise InvalidValue(
                f"{name}: {whole} is a floating point number, in which the last digits of a long id are lost: read ids "
                "as texts (in pandas by dtype=str), and give these"
            )
        return str(whole)
    if isinstance(value, bool) or not isinstance(value, int | np.integer):
        raise InvalidValue(f"{name}: {value!r} is no id: give texts or whole numbers")
    return str(int(value))
