"""What a case is, and how it says what differed."""
from collections.abc import Callable
from typing import TYPE_CHECKING

if TYPE_CHECKING:
    from cases.laboratory import Laboratory

Case = Callable[["Laboratory"], None]

CASES: dict[str, Case] = {}


class Differs(Exception):
    """Something is not as the rules have it."""


def case(play: Case) -> Case:
    """Lists a case under the name of its function."""
    CASES[play.__name__] = play
    return play


def shown(value: object) -> str:
    """A value in at most 300 characters."""
    text = repr(value)
    return text if len(text) <= 300 else f"{text[:300]}.. ({len(text)} characters)"


def expect(what: str, got: object, wanted: object) -> None:
    """Refuses a value that is not the one that was wanted."""
    if got != wanted:
        raise Differs(f"{what}: {shown(got)}, and not {shown(wanted)}")


def expect_within(what: str, got: float, least: float, most: float) -> None:
    """Refuses a number that lies below the least or above the most."""
    if not least <= got <= most:
        raise Differs(f"{what}: {got:.2f}, and not from {least} to {most}")


def expect_that(what: str, holds: bool) -> None:
    """Refuses what does not hold."""
    if not holds:
        raise Differs(what)
