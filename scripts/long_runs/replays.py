"""Random scripts, which `connector replay` and the model run; both are to print the same, and standard error is
to tell of the bad lines alone."""
import random
import re
import subprocess
import tempfile
from collections import Counter
from collections.abc import Iterator
from dataclasses import dataclass, field
from itertools import zip_longest
from pathlib import Path

from long_runs.authors import Author
from long_runs.configurations import Configuration, as_toml, drawn_configuration
from long_runs.scripts import Script

# A script is cut before it has more octets than the program reads.
MOST_OCTETS = 1_048_576
MOST_OF_A_LINE = 70_000
WITHIN_SECONDS = 120

# What must come up in a long run: replies, and edges that were just reached.
LONG_RUN = 1_000_000
KINDS = [
    "nothing", "bad line", "report: report", "hold: held",
    *(f"hold: bad packet {fault}" for fault in (
        "1 Truncated", "2 BadPrefix", "3 TooLong", "4 UnknownType", "5 Trailing", "6 BadExpiry",
        "7 BadAddress", "8 FieldTooLong", "10 NotPrepare")),
    *(f"hold: reject {reject}" for reject in (
        "F08 AmountTooLarge", "F02 NoRoute", "F02 BackToSender", "R00 Expired", "R02 TooShort",
        "F02 NoPrice", "F03 OutTooLarge", "R01 RoundsToNothing", "T03 Full", "T04 TotalFull",
        "T04 BelowLeast")),
    *(f"answer: {told}" for told in (
        "entry fulfilled", "entry released Late", "entry released WrongPreimage",
        "entry released NoReply", "entry released Peer", "not open by", "not open")),
    "expire: entry released Late", "expire: none due",
    *(f"credit: {told}" for told in (
        "entry credited", "kept credited", "refused 31 NotJson", "refused 32 BadAmount",
        "refused 33 BadScale", "refused 34 TooLarge", "refused 41 Full", "refused 46 KeyTaken")),
    "ask: entry asked", "ask: refused 41 Full", "ask: refused 47 NotDue", "ask: refused 48 StillOpen",
    "close: entry confirmed", "close: entry undone", "close: not open by", "close: not open",
    "an answer that can't be read", "a clock that went back", "totals beyond the most, of both",
    "totals beyond the most, of amounts in", "totals beyond the most, of amounts out",
    "totals just full", "the last room, of a hold", "the last room, of a credit",
    "the last room, of an ask", "a balance at its least", "an amount of the sender's greatest",
    "one millisecond until the deadline", "a deadline by the expiry", "a deadline by the longest hold",
    "a price", "several prefixes at the front of an address", "a Fulfill at the deadline",
    "a Fulfill just before the deadline", "a sweep just before a deadline", "a sweep at a deadline",
    "a sweep of equal deadlines", "a known key with an equal worth", "a credit of nothing",
    "a key that another peer has", "an ask one below the threshold", "an ask at the threshold",
    "an ask for the most", "an ask beside open ones", "a script of 256 peers"]


@dataclass(frozen=True)
class Plan:
    """A script that is to be run: from its seed, of so many lines. A crowded one has as many peers, assets
    and routes as there may be."""

    binary: Path
    seed: int
    length: int
    crowded: bool


@dataclass
class Outcome:
    """What a run came to; without a difference all was equal."""

    seed: int
    steps: int
    kinds: Counter[str] = field(default_factory=Counter)
    difference: str | None = None


def plans(binary: Path, seed: int, steps: int) -> Iterator[Plan]:
    """Scripts of so many lines in all; each has a seed of its own, from the first one on."""
    while steps > 0:
        chance = random.Random(f"the length of {seed}")
        crowded = chance.random() < 0.01
        length = min(100 if crowded else chance.choice([30, 100, 200, 300, 500, 800]), steps)
        yield Plan(binary, seed, length, crowded)
        seed, steps = seed + 1, steps - length


# ---- both sides

BAD = "bad line\n"


def modelled(configuration: Configuration, lines: list[bytes]) -> tuple[list[str], Counter[str]]:
    """What the model prints of each line, with the number of a bad one, and the kinds of that."""
    script = Script(configuration)
    texts = [script.run(line) for line in lines]
    numbered = [f"bad line {number}\n" if text == BAD else text for number, text in enumerate(texts, start=1)]
    return numbered, script.kinds + script.book.notes


def with_numbers(text: str, told: list[str]) -> str:
    """A printed text, with the numbers of bad lines that standard error tells; what else it tells is put behind
    that."""
    found = [re.fullmatch(r"line (\d+): \S.*", line) for line in told]
    numbers = iter(match[1] for match in found if match is not None)
    text = re.sub("^bad line$", lambda _: f"bad line {next(numbers, '?')}", text, flags=re.MULTILINE)
    more = [f"line {number}" for number in numbers] + [line for line, match in zip(told, found) if match is None]
    return text + (f"[standard error: {more!r}]\n" if more else "")


def printed(binary: Path, configuration: Path, lines: list[bytes]) -> str:
    """What the program prints, as the model does; a fault of it is told behind that."""
    try:
        done = subprocess.run([binary, "replay", configuration], input=b"\n".join(lines),
                              capture_output=True, timeout=WITHIN_SECONDS, check=False)
    except subprocess.TimeoutExpired:
        return f"[it did not end within {WITHIN_SECONDS} seconds]\n"
    text = with_numbers(done.stdout.decode("latin-1"), done.stderr.decode("latin-1").splitlines())
    if done.returncode != 0:
        text += f"[exit status {done.returncode}]\n"
    return text


def written(chance: random.Random, configuration: Configuration, length: int) -> list[bytes]:
    """The lines of a script, drawn one by one over the model's book."""
    script = Script(configuration)
    author = Author(chance, configuration, script.book)
    lines: list[bytes] = []
    octets = 0
    while len(lines) < length and octets < MOST_OCTETS - 2 * MOST_OF_A_LINE:
        line = author.line()
        lines.append(line)
        octets += len(line) + 1
        script.run(line)
    return lines + ([b""] if chance.random() < 0.5 else [])


# ---- where they differ

def first_difference(texts: list[str], came: str) -> tuple[int, str, str] | None:
    """The script's first line of which something else came, with the two printed lines."""
    wanted = [(place, line) for place, text in enumerate(texts) for line in text.splitlines(keepends=True)]
    nothing = (len(texts), "")
    for one, got in zip_longest(wanted, came.splitlines(keepends=True)):
        place, line = one or nothing
        if line != (got or ""):
            return place, line, got or ""
    return None


def without_parts(binary: Path, configuration: Configuration, file: Path, lines: list[bytes],
                  size: int) -> list[bytes]:
    """The lines without those of their parts of this size that are not needed for a difference."""
    for begin in range(len(lines) - size, -1, -size):
        fewer = lines[:begin] + lines[begin + size:]
        if first_difference(modelled(configuration, fewer)[0], printed(binary, file, fewer)):
            lines = fewer
    return lines


def shrunk(binary: Path, configuration: Configuration, file: Path, lines: list[bytes]) -> list[bytes]:
    """Fewer lines that still differ: smaller and smaller parts are left out, and single lines for as
    long as that helps."""
    size = len(lines)
    while size > 0:
        fewer = without_parts(binary, configuration, file, lines, size)
        if len(fewer) == len(lines) or size > 1:
            size //= 2
        lines = fewer
    return lines


def keep(plan: Plan, toml: str, configuration: Configuration, lines: list[bytes]) -> str:
    """Keeps all that shows a difference, and says where."""
    folder = Path(tempfile.mkdtemp(prefix=f"long-run-{plan.seed}-"))
    file = folder / "connector.toml"
    file.write_text(toml)
    (folder / "script").write_bytes(b"\n".join(lines))
    texts, _ = modelled(configuration, lines)
    came = printed(plan.binary, file, lines)
    (folder / "expected").write_text("".join(texts))
    (folder / "printed").write_text(came, encoding="latin-1")
    found = first_difference(texts, came)
    if found is None:
        return f"seed {plan.seed}: a difference that did not come again, in {folder}"
    place, wanted, got = found
    smallest = shrunk(plan.binary, configuration, file, lines[:place + 1])
    (folder / "smallest.script").write_bytes(b"\n".join(smallest))
    line = lines[place] if place < len(lines) else b""
    shown = "\n".join(f"    {one.decode('latin-1')[:200]}" for one in smallest)
    return (f"seed {plan.seed}, line {place + 1} of {len(lines)}: {line.decode('latin-1')[:300]}\n"
            f"  expected: {wanted[:300]!r}\n  came:     {got[:300]!r}\n"
            f"  the configuration:\n{toml}\n  the smallest script that differs:\n{shown}\n"
            f"  kept in {folder}, where smallest.script is that")


def run(plan: Plan) -> Outcome:
    """Draws a configuration and a script, and runs it on both sides."""
    chance = random.Random(plan.seed)
    configuration = drawn_configuration(chance, plan.length, plan.crowded)
    toml = as_toml(configuration, chance)
    lines = written(chance, configuration, plan.length)
    texts, kinds = modelled(configuration, lines)
    with tempfile.TemporaryDirectory(prefix="long-run-") as folder:
        file = Path(folder) / "connector.toml"
        file.write_text(toml)
        came = printed(plan.binary, file, lines)
    kinds["a script of 256 peers"] += plan.crowded
    outcome = Outcome(plan.seed, len(lines), kinds)
    if "".join(texts) != came:
        outcome.difference = keep(plan, toml, configuration, lines)
    return outcome
