"""What to do about a certificate that is refused, by what its file looks like: it is another file, an editor saved it,
it is of another seal, or something in it was changed. Of the file itself nothing is told."""
from __future__ import annotations

import os
from typing import IO

from gudokeyi.domain.messages import MessageText
from gudokeyi.domain.seals import DIGITS, CheckAdvice, CheckFault, OtherKind

# with which bytes files of other kinds begin
KINDS = {
    b"%PDF": OtherKind.PDF, b"\xff\xd8\xff": OtherKind.PICTURE, b"\x89PNG": OtherKind.PICTURE,
    b"GIF8": OtherKind.PICTURE, b"RIFF": OtherKind.PICTURE, b"<": OtherKind.PAGE, b"PK": OtherKind.ARCHIVE,
    b"\xd0\xcf\x11\xe0": OtherKind.ARCHIVE, b"\x1f\x8b": OtherKind.ARCHIVE, b"Rar!": OtherKind.ARCHIVE,
    b"7z\xbc\xaf": OtherKind.ARCHIVE,
}  # fmt: skip
# with which a certificate's begins, of this version and of each
NAME = b"herdbook-certificate-"
THIS, AT_SEAL = NAME + b"1,", len(NAME) + 2
# so much of a file is looked at, from its beginning and back from its end
BEGUN, ENDS = 4096, 256
# what says nothing of the file
OF_MACHINE = (CheckFault.READ, CheckFault.MEMORY)


def advice_on(certificate: IO[bytes], fault: CheckFault, seal: str) -> MessageText:
    """What to do about a file that is refused under a seal."""
    if fault in OF_MACHINE:
        return CheckAdvice.LATER.said()
    try:
        begun, end = ends_of(certificate.fileno())
    except OSError:
        # what came by a pipe is gone
        return CheckAdvice.CHANGED.said()
    if not begun.startswith(NAME):
        return advice_on_other(begun)
    if not begun.startswith(THIS):
        return CheckAdvice.OTHER_VERSION.said()
    if b"\r" in begun or is_added_to(end):
        return CheckAdvice.EDITED.said()
    if fault is CheckFault.SEAL and begun[AT_SEAL : AT_SEAL + DIGITS] != seal.encode():
        return CheckAdvice.OTHER_SEAL.said()
    return CheckAdvice.CHANGED.said()


def ends_of(number: int) -> tuple[bytes, bytes]:
    """How an open file begins and ends, wherever somebody else who has it open is in it."""
    size = os.fstat(number).st_size
    return os.pread(number, BEGUN, 0), os.pread(number, ENDS, max(0, size - ENDS))


def advice_on_other(begun: bytes) -> MessageText:
    """That on a file which doesn't begin as a certificate."""
    if not begun:
        return CheckAdvice.EMPTY.said()
    # in an encoding of two bytes each letter has a byte 0
    if NAME in begun.replace(b"\0", b""):
        return CheckAdvice.EDITED.said()
    kind = next((kind for head, kind in KINDS.items() if begun.lstrip().startswith(head)), None)
    return CheckAdvice.OTHER_KIND.said(kind=kind.said()) if kind else CheckAdvice.OTHER_FILE.said()


def is_added_to(end: bytes) -> bool:
    """Did an editor add blank lines to the end, or take the last line's end away?"""
    last = end.rstrip()
    return end != last + b"\n" and len(last.rpartition(b"\n")[2]) == DIGITS
