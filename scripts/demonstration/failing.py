"""What ends the demonstration, in one line that says what to do."""
from pathlib import Path

TOP = Path(__file__).resolve().parent.parent.parent


class BadInput(Exception):
    """Something that the demonstration needs is not there, or was asked for wrongly."""


class Differs(Exception):
    """Something is not as it must be."""


def expect(what: str, got: object, wanted: object) -> None:
    """Refuses a value that is not the one that was wanted."""
    if got != wanted:
        raise Differs(f"{what} is {got}, and must be {wanted}")
