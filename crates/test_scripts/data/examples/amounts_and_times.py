"""Amounts as decimals and moments in UTC, as texts: what the programs beside it that read books have in common.

Amounts are whole numbers of units, of which 10 to the power of the scale are one whole; no float is made of
them. It needs Python 3.11 and nothing else.
"""
from __future__ import annotations

import datetime

EPOCH = datetime.datetime(1970, 1, 1)
MILLISECOND = datetime.timedelta(milliseconds=1)

# In milliseconds: the last moment of the year 9999.
MOST_MOMENT = 253_402_300_799_999

# A decimal has at most so many characters where it is shown; of a finer scale the units and the scale are.
MOST_SHOWN = 44


def decimal_of(units: int, scale: int) -> str:
    """An amount at the scale of its asset.

    >>> [decimal_of(-1250, 2), decimal_of(-5, 2), decimal_of(0, 2), decimal_of(12, 0)]
    ['-12.50', '-0.05', '0.00', '12']
    """
    digits = str(abs(units)).rjust(scale + 1, "0")
    point = len(digits) - scale
    decimals = f".{digits[point:]}" if scale else ""
    return f"{'-' if units < 0 else ''}{digits[:point]}{decimals}"


def shown(units: int, scale: int) -> str:
    """An amount as it is shown, which is never cut.

    >>> [shown(-1250, 2), shown(7, 255)]
    ['-12.50', '7e-255']
    """
    text = decimal_of(units, scale)
    return text if len(text) <= MOST_SHOWN else f"{units}e-{scale}"


def moment_of(milliseconds: int) -> datetime.datetime:
    """A moment in UTC; one behind the year 9999 is the last of it."""
    return EPOCH + min(milliseconds, MOST_MOMENT) * MILLISECOND


def time_of(milliseconds: int) -> str:
    """A moment as a text.

    >>> time_of(1795723200123)
    '2026-11-26T20:00:00.123Z'
    """
    return moment_of(milliseconds).isoformat(timespec="milliseconds") + "Z"
