"""Tells on standard error how far a tool is that takes long: a line that changes on a terminal, and else a line now and then."""

import sys
import time
from collections.abc import Callable

# After how many seconds there is a first line, and how many are between two.
TERMINAL, PLAIN = (1.0, 0.2), (30.0, 30.0)


class Clock:
    """When it was told last, and whether a line stands on the terminal. Time is looked at once in so many calls."""

    calls = 0
    began = 0.0
    told = 0.0
    stands = False
    tool = ""


def begin(tool: str) -> None:
    """Counts the time of a tool from now on."""
    Clock.tool, Clock.began, Clock.told = tool, time.monotonic(), 0.0


def tell(text: Callable[[], str]) -> None:
    """Tells how far it is, if it is time to."""
    Clock.calls += 1
    if Clock.calls % 256:
        return
    now, is_terminal = time.monotonic(), sys.stderr.isatty()
    first, between = TERMINAL if is_terminal else PLAIN
    if now - Clock.began < first or now - Clock.told < between:
        return
    Clock.told = now
    Clock.stands = is_terminal
    line = f"{Clock.tool}: {text()}"
    sys.stderr.write(f"\r{line}\x1b[K" if is_terminal else f"{line}\n")
    sys.stderr.flush()


def clear() -> None:
    """Takes the line away that stands on the terminal."""
    if Clock.stands:
        sys.stderr.write("\r\x1b[K")
        sys.stderr.flush()
        Clock.stands = False
