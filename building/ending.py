"""Ends a call that is interrupted."""
from __future__ import annotations

import signal
import types

SIGNALS = (signal.SIGINT, signal.SIGTERM, signal.SIGHUP)


def end_by_signals() -> None:
    """Has each of these signals end the call as the first does by itself, but one that is ignored, as by nohup."""
    for it in SIGNALS:
        if signal.getsignal(it) is not signal.SIG_IGN:
            signal.signal(it, interrupted)


def interrupted(number: int, frame: types.FrameType | None) -> None:
    """Ends the call once: those that come while it ends change nothing."""
    for it in SIGNALS:
        if signal.getsignal(it) is interrupted:
            signal.signal(it, passed_over)
    raise KeyboardInterrupt


def passed_over(number: int, frame: types.FrameType | None) -> None:
    """Does nothing. A signal that is ignored in its place would be ignored by the programs too that are started."""
