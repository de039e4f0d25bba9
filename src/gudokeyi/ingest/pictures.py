"""The society's picture as somebody hands it in: a PNG or a JPEG, of which the points alone are read and written anew.
So nothing else of the file remains, such as where and by whom it was taken, or what somebody hid in it."""
from __future__ import annotations

import io
from typing import TYPE_CHECKING

from gudokeyi.domain.mistakes import InvalidValue
from gudokeyi.domain.settings import JPEG, PNG, Picture
from gudokeyi.ingest.messages import PictureFault

if TYPE_CHECKING:
    from PIL.Image import Image

# so many bytes a file has at most, so many points it is read of, and so many its longer side has where it is kept
MOST_BYTES, MOST_POINTS, LONGEST = 1_000_000, 20_000_000, 800
# as Pillow names them
KINDS = {"PNG": PNG, "JPEG": JPEG}
# how a JPEG is written
QUALITY = 90


def picture_read(file: bytes) -> Picture:
    """The picture of a file; a mistake where it is none, or too large."""
    if not file:
        raise InvalidValue(PictureFault.MISSING.said())
    if len(file) > MOST_BYTES:
        raise InvalidValue(PictureFault.TOO_LARGE.said())
    # it takes time to import
    from PIL import Image

    try:
        with Image.open(io.BytesIO(file), formats=(*KINDS,)) as image:
            kind, points = image.format or "", image.width * image.height
            found = points_of(image) if points <= MOST_POINTS else None
    except Image.DecompressionBombError:
        found = None
    except Exception:
        # what a file that is no picture is told by is whatever its reader stumbles over
        raise InvalidValue(PictureFault.NO_PICTURE.said()) from None
    if found is None:
        raise InvalidValue(PictureFault.MANY_POINTS.said(most=MOST_POINTS // 1_000_000))
    width, height = found.size
    return Picture(KINDS[kind], width, height, written(found, kind))


def points_of(image: Image) -> Image:
    """The points of a picture, upright and no more than are kept, without all else that its file has."""
    from PIL import Image as Images, ImageOps

    # a JPEG is read no larger than it has to be
    image.draft("RGB", (LONGEST, LONGEST))
    if image.mode.startswith("I"):
        # of sixteen bits the first eight are kept
        image = image.point(lambda value: value * (1 / 256)).convert("L")
    is_clear = image.format == "PNG" and ("A" in image.mode or "transparency" in image.info)
    upright = ImageOps.exif_transpose(image).convert("RGBA" if is_clear else "RGB")
    upright.thumbnail((LONGEST, LONGEST), Images.Resampling.LANCZOS)
    return Images.frombytes(upright.mode, upright.size, upright.tobytes())


def written(image: Image, kind: str) -> bytes:
    """The file of these points."""
    file = io.BytesIO()
    image.save(file, kind, optimize=True, quality=QUALITY)
    return file.getvalue()
