"""How a script is started whose moments are chosen by chance, and how it ends."""
import sys
import time
from collections.abc import Callable
from pathlib import Path

from cases.case import Differs
from cases.laboratory import Laboratory
from cases.operating import is_program, raise_own_limit


def play_by_chance(words: list[str], usage: str, usual: int, play: Callable[[Laboratory, int, int], str]) -> int:
    """Plays PATH/TO/connector [NUMBER [SEED]], where the number is the usual one and the seed another each time if they
    are not given. Prints the seed, and what comes of it or what differed. Returns the exit status."""
    numbers = words[1:]
    if not 1 <= len(words) <= 3 or not all(word.isascii() and word.isdigit() for word in numbers) \
            or not is_program(Path(words[0])):
        print(usage, file=sys.stderr)
        return 2
    number = int(numbers[0]) if numbers else usual
    seed = int(numbers[1]) if len(numbers) > 1 else time.time_ns() // 1_000_000 % 10**9
    raise_own_limit()
    print(f"seed {seed}", flush=True)
    with Laboratory(Path(words[0]).resolve()) as laboratory:
        try:
            print(play(laboratory, number, seed))
            return 0
        except (Differs, OSError) as differs:
            print(differs)
            return 1
