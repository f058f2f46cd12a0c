#!/usr/bin/env python3
"""Denies each growth of memory of a built program in turn, and looks at what it ends with.

    scripts/gate/denied_growths.py NAME ..

It is for what takes its memory on the global heap alone, which no allocator of a test can deny: TOML,
JSON, keys, the copies of a configuration, the fields of a head, the room for a message, the book of a
desk. The programs are those in crates/*/out, as `rt run` builds them; denying.c, which a C compiler
(`cc`) makes a library of, is preloaded before them. It is no part of the gate. Without names all are
run. The exit status is 1 where an end is not as the rules have it (docs/PROTOCOL.md), and 2 where the
arguments are not understood. A NAME is one of these:

- check: `connector check -` says want of memory.
- carry: so does `connector check - journal` over a journal with a hold, a credit and a settlement.
- replay: `connector replay -` prints a front of its text, of whole lines, and then want of memory; or all
  of it, where memory is denied as its bad lines are looked for.
- http: of two equal requests one is told as want of memory.
- packet, settlement, message, engine, report, settler, page: a scene of test_scenes in which
  something comes twice or more. One of these is answered as is due where memory is denied, and the
  others as ever. In the last a settlement is asked for where a page of the journal ends.
"""
import os
import subprocess
import sys
import tempfile
from bisect import bisect_left
from collections import Counter
from collections.abc import Callable
from dataclasses import dataclass
from itertools import count, takewhile
from pathlib import Path

ROOT = Path(__file__).resolve().parents[2]
sys.path.append(str(ROOT / "scripts/vectors"))

import connections as served  # noqa: E402
from scenes import FULFILL, START, T00, T01, prepare, report_lines  # noqa: E402

DENIED = "a growth was denied\n"


class Differs(Exception):
    """An end that is not as the rules have it."""


@dataclass(frozen=True)
class Run:
    """What a program ended with, and whether a growth was denied."""
    status: int
    lines: list[str]
    denied: bool


# What became of a run, beside one in which nothing was denied; None where no growth is left that
# matters.
Judge = Callable[[Run, Run], str | None]


@dataclass(frozen=True)
class Program:
    """A program, what it is run with, and how its ends are judged. Its first growths are passed over,
    as many as the other program makes, if there is one."""
    crate: str
    judge: Judge
    arguments: tuple[str, ...] = ()
    given: str = ""
    data: tuple[tuple[str, str], ...] = ()
    behind: "Program | None" = None

    def run(self, library: Path, room: Path, growth: int) -> Run:
        """Runs it in this folder without this growth; there is none of the number 0."""
        binary = ROOT / "crates" / self.crate / "out" / self.crate
        if not binary.exists():
            raise Differs(f"{binary} is not built")
        names = {**os.environ, "LD_PRELOAD": str(library), "DENIED_GROWTH": str(growth)}
        ended = subprocess.run([binary, *self.arguments], cwd=room, input=self.given, env=names,
                               capture_output=True, text=True, timeout=60, check=False)
        return Run(ended.returncode, ended.stdout.splitlines(), DENIED in ended.stderr)


OWN = "the program's own want of memory ended it"
SILENT = "the program told nothing of its own want of memory"


# ---- the connector

REFUSED = "refused 44 Memory"
QUANTITY = '{"amount":"1000","scale":2}'
JOURNAL = f"""ilp-journal 1
{START} 0 hold alice bob 100 0 100 {START + 29_000} {prepare()[27:59].hex()}
{START} 0 credited bob {b"k".hex()} 1000 2 1000
{START} 0 asked bob 800
end 3
"""
SCRIPT = [
    (f"hold {START} alice {prepare().hex()}", "held 0 to bob out 100"),
    (f"answer {START} 0 {FULFILL.hex()}", "entry 1 fulfilled 0"),
    (f"credit {START} bob k {QUANTITY}", "entry 2 credited 1000"),
    (f"credit {START} bob k {QUANTITY}", "kept 2 credited 1000"),
    (f"ask {START} bob", "entry 3 asked 900"),
    (f"close {START} 3 yes", "entry 4 confirmed 3"),
    (f"hold {START} bob {prepare(destination=b'test.alice').hex()}", "held 5 to alice out 100"),
    (f"expire {START + 29_000}", "entry 6 released 5 Late"),
    ("report", "\n".join(report_lines(-100, 200, 100, 100, entries=7, fulfilled=1))),
]


def connector(command: str, text: list[str], given: str = "", journal: str | None = None) -> Program:
    """The connector, which prints this text, or a front of it and then want of memory. Where a journal is
    given, it is the command's second argument. Behind the text of a script its bad lines are looked for, which
    is for standard error alone."""
    def judge(run: Run, _: Run) -> str | None:
        if (run.status, run.lines) == (0, text):
            if not run.denied:
                return None
            if command == "replay":
                return "want of memory behind the whole text"
        *front, last = run.lines or [""]
        if run.status != 1 or last != REFUSED or front != text[:len(front)]:
            raise Differs(f"status {run.status}, {run.lines}")
        return f"want of memory after {len(front)} lines"
    if journal is None:
        return Program("connector", judge, (command, "-"), given)
    return Program("connector", judge, (command, "-", "journal"), given, (("journal", journal),))


# ---- requests

ROW = (ROOT / "crates/test_http/data/requests.txt").read_text().splitlines()[0]
# The line of it where it is read, and what that begins with where memory is denied: each time that it is read,
# or where that ends otherwise as what follows changes.
READ = (ROOT / "crates/test_http/stdout").read_text().splitlines()[0]
SHORT, OTHERWISE = f"{ROW}: memory is short", READ.removesuffix(", whatever follows") + ", and something else "


def judge_requests(run: Run, _: Run) -> str | None:
    """What is told of two equal requests, which come whole, in pieces, and to be looked at. Behind it
    stands what is written, of which each growth is the program's own."""
    told = list(takewhile(lambda line: not line.startswith("HTTP/"), run.lines))
    whole = [line for line in told if line.startswith("POST")]
    others = [line for line in told if not line.startswith("POST")]
    if len(told) == len(run.lines) and run.status == 1 and told == [READ] * len(told):
        return OWN
    short = [line for line in whole if line.startswith((SHORT, OTHERWISE))]
    if len(whole) == 2 and len(short) == 1 and READ in whole and not others:
        return "a request was refused for want of memory"
    if whole == [READ, READ] and len(others) < 2:
        return "a request in pieces was" if others else None
    raise Differs(f"status {run.status}, {told}")


# ---- scenes

@dataclass(frozen=True)
class Answer:
    """What became of a connection or of a turn, and the lines of the response."""
    handled: str
    lines: tuple[str, ...] = ()


HANDLED = ("Done(", "Fault(", "Close", "NoAccount", "Idle(", "Kept ", "no memory")


def answers_in(lines: list[str]) -> list[Answer]:
    found: list[Answer] = []
    for line in lines:
        if line.startswith(HANDLED):
            found.append(Answer(line))
        elif line.startswith(('"', "body: ")) and found:
            found[-1] = Answer(found[-1].handled, (*found[-1].lines, line))
    return found


def entries_in(lines: list[str]) -> int:
    return sum(line.startswith("entry ") for line in lines)


def answer(lines: list[str]) -> Answer:
    return answers_in(lines)[0]


# What a step may be answered where memory is denied, and how many entries are missing then.
Refusals = dict[Answer, tuple[int, ...]]
UNOPENED = ("no configuration: memory is short", "no desk", "no worker", "no settler")
UNREAD = Answer("Fault(Memory)", ("body: ",))
UNAVAILABLE = answer(served.status(503))
BAD_GATEWAY = answer(served.status(502))
INTERNAL = answer(served.response(200, T00))
UNREACHABLE = answer(served.response(200, T01))
NO_MEMORY = Answer("no memory")


def without_one(lines: list[str], ample: list[str]) -> list[str]:
    """The ample lines without the first that isn't there."""
    place = next((n for n, (one, other) in enumerate(zip(lines, ample)) if one != other), len(lines))
    return ample[:place] + ample[place + 1:]


def is_front(found: list[Answer], told: list[Answer]) -> bool:
    """Whether these are the first that were told, of which the last may be cut short."""
    if not found:
        return True
    last, whole = found[-1], told[len(found) - 1]
    return (found[:-1] == told[:len(found) - 1] and last.handled == whole.handled
            and last.lines == whole.lines[:len(last.lines)])


def is_unwritten(found: list[Answer], told: list[Answer]) -> bool:
    """Whether one response was not written whole, and the others are as told."""
    others = [(one, other) for one, other in zip(found, told) if one.handled != "Fault(Write)"]
    return len(found) == len(told) == len(others) + 1 and all(one == other for one, other in others)


def judge_scene(refusals: Refusals) -> Judge:
    """One step may be answered by a refusal, by which so many entries are missing in the book."""
    def judge(run: Run, ample: Run) -> str | None:
        if not run.denied and (run.status, run.lines) == (0, ample.lines):
            return None
        if run.status == 0 and run.lines in [ample.lines, without_one(run.lines, ample.lines)]:
            return SILENT
        found, told = answers_in(run.lines), answers_in(ample.lines)
        refused = [one for one in found if one in refusals]
        if run.status == 1 and is_front(found, told):
            return OWN
        if run.status == 0 and run.lines[-1] in UNOPENED:
            return run.lines[-1]
        missing = entries_in(ample.lines) - entries_in(run.lines)
        if run.status == missing == 0 and is_unwritten(found, told):
            return "a write failed for want of the sink's memory; what was booked stays"
        kept = [one for one in found if one not in refusals]
        if (run.status != 0 or len(refused) != 1 or missing not in refusals[refused[0]]
                or kept not in [told[:n] + told[n + 1:] for n in range(len(told))]):
            unlike = [one for one in found if one not in told]
            raise Differs(f"status {run.status}, {unlike}, {missing} entries are missing")
        return f"{refused[0].handled} {refused[0].lines[-1:]}"
    return judge


Step = tuple[list[str], list[str]]


def scene(steps: list[Step], refusals: Refusals, behind: Program | None = None,
          **given: bytes | str) -> Program:
    name, lines, _ = served.scene("a growth denied", steps, [], **given)
    folder = ROOT / "crates/test_scenes/data"
    data = {"workers.txt": "", "connections.txt": "\n".join([f"== {name}", *lines, ""]),
            "two_peers.toml": (folder / "two_peers.toml").read_text()}
    return Program("test_scenes", judge_scene(refusals), data=tuple(data.items()), behind=behind)


ANSWERS = served.fulfill(data=served.ANSWER)
PACKET = served.packet([], prepare(50))
SETTLEMENT = served.settled([], served.ROW)
MESSAGE = served.message([])
ENGINE = served.packet([], served.for_engine(), token="b-token")
REPORT = served.at_engines([], "/report")
TURN = served.turn(1)
# Two entries a packet and one of a credit make 255, and a page has room for 256: so where a settlement
# is asked for then, there is no room for what closes it.
PAGE = [served.packet([], prepare(0))] * 127

PROGRAMS: dict[str, Program] = {
    "check": connector("check", ["ok 2 peers 1 assets 2 routes"]),
    "carry": connector("check", ["ok 2 peers 1 assets 2 routes 4 entries"], journal=JOURNAL),
    "replay": connector("replay", "\n".join(text for _, text in SCRIPT).splitlines(),
                        "".join(line + "\n" for line, _ in SCRIPT)),
    "http": Program("test_http", judge_requests,
                    data=(("requests.txt", f"{ROW}\n{ROW}\n"), ("responses.txt", ""))),
    "packet": scene([PACKET] * 2, {UNREAD: (2,), INTERNAL: (2,), UNREACHABLE: (0,)}, bob=FULFILL),
    "settlement": scene([SETTLEMENT] * 2, {UNREAD: (0,), UNAVAILABLE: (0,)}),
    "message": scene([MESSAGE] * 2, {UNREAD: (0,), UNAVAILABLE: (0,), BAD_GATEWAY: (0,)},
                     bob=ANSWERS),
    "engine": scene([ENGINE] * 2, {UNREAD: (0,), INTERNAL: (0,), UNREACHABLE: (0,)},
                    replies=served.ANSWER),
    "report": scene([REPORT] * 2, {UNREAD: (0,), UNAVAILABLE: (0,)}),
    "settler": scene([served.DUE] * 2 + [TURN] * 3,
                     {UNREAD: (0,), UNAVAILABLE: (0,), NO_MEMORY: (0,)}, says="account accepted"),
    "page": scene(PAGE + [served.DUE] * 2 + [TURN] * 3,
                  {UNREAD: (0,), UNAVAILABLE: (0,), NO_MEMORY: (0,)},
                  scene(PAGE, {}, bob=FULFILL), bob=FULFILL, says="account accepted"),
}


def prepare_room(program: Program, room: Path) -> None:
    for name, text in program.data:
        (room / name).write_text(text)


def growths_of(program: Program, library: Path, room: Path) -> int:
    """How many growths a program makes."""
    prepare_room(program, room)
    most = next(n for n in (2**power for power in count()) if not program.run(library, room, n).denied)
    return bisect_left(range(most), True, lo=1,
                       key=lambda n: not program.run(library, room, n).denied) - 1


def deny_each(program: Program, library: Path) -> None:
    """Denies the growths from the first on, and prints what became of the runs."""
    became = Counter[str]()
    with tempfile.TemporaryDirectory() as folder:
        room = Path(folder)
        passed_over = growths_of(program.behind, library, room) if program.behind else 0
        prepare_room(program, room)
        ample = program.run(library, room, 0)
        for growth in count(passed_over + 1):
            run = program.run(library, room, growth)
            try:
                what = program.judge(run, ample)
            except Differs as differs:
                raise Differs(f"growth {growth}: {differs}") from None
            if what is None:
                break
            became[what] += 1
    for what, times in became.items():
        print(f"  {times}: {what}")


def main() -> int:
    names = sys.argv[1:] or list(PROGRAMS)
    if not set(names) <= set(PROGRAMS):
        print(f"denied_growths.py {' '.join(f'[{name}]' for name in PROGRAMS)}", file=sys.stderr)
        return 2
    with tempfile.TemporaryDirectory() as folder:
        library = Path(folder) / "denying.so"
        source = Path(__file__).with_name("denying.c")
        subprocess.run(["cc", "-O1", "-shared", "-fPIC", "-o", library, source], check=True)
        for name in names:
            print(f"{name}:", flush=True)
            try:
                deny_each(PROGRAMS[name], library)
            except Differs as differs:
                print(f"  {differs}")
                return 1
    return 0


if __name__ == "__main__":
    sys.exit(main())
