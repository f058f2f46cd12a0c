"""A dispute of two connectors, from their journals to what examples/reconcile.py says."""
import hashlib
import subprocess
import tempfile
from pathlib import Path

from cases.case import expect, expect_that
from statements.by_hand import MET, ZERO
from statements.mirrored import configuration

TOP = Path(__file__).resolve().parent.parent.parent
STATEMENT, RECONCILE = TOP / "scripts/statement.py", TOP / "examples/reconcile.py"
AGREED, DIFFERED = 0, 1

ONES = "01" * 32
LOST = hashlib.sha256(bytes.fromhex(ONES)).hexdigest()

# Bob sends 5.00, which is fulfilled, and pays 10.00. He is sent 2.00, which he fulfills; the hub lost his answer. And
# somebody told the hub that he had paid 20.00.
HUB = f"""ilp-journal 1
1795723200000 0 hold bob shop 500 0 500 1795723230000 {MET}
1795723200100 0 fulfilled 0 {ZERO}
1795723200200 0 hold shop bob 203 3 200 1795723230000 {LOST}
1795723200500 0 credited bob 626f62732d34 1000 2 1000
1795723200700 0 credited bob 666f72676564 2000 2 2000
1795723230000 0 released 2 Late
end 6
"""

BOB = f"""ilp-journal 1
1795723199990 0 hold bank hub 505 5 500 1795723230000 {MET}
1795723200110 0 fulfilled 0 {ZERO}
1795723200210 0 hold hub bank 200 0 200 1795723230000 {LOST}
1795723200290 0 fulfilled 2 {ONES}
1795723200400 0 asked hub 1000
1795723200600 0 confirmed 4
end 6
"""

# The hub takes the forged credit back.
TAKEN_BACK = HUB.replace("end 6", f"1795723290000 0 corrected bob 6331 20 0 2000 falls {b'forged'.hex()}\nend 7")

# What would have been; and the hub's book while the first packet is held.
HONEST = HUB.replace("1795723200700 0 credited bob 666f72676564 2000 2 2000\n", "").replace(
    "0 released 2 Late\nend 6", f"0 fulfilled 2 {ONES}\nend 5")
BEGUN = HUB[:HUB.index("1795723200100")] + "end 1\n"

FORGED_TOLD = "ours 2026-11-26T20:00:00.700Z entry 4 credited 20.00; key forged; sum 20.00"
LOST_TOLD = ("ours 2026-11-26T20:00:30.000Z entry 5 refused 2.00 (Late)",
             "theirs 2026-11-26T20:00:00.290Z entry 3 paid 2.00", f"condition {LOST}; sum -2.00")

TOLD = f"""ours: run hub, its account of bob in USD/2, from entry 0 of period 0 on and before entry 6 of period 0
theirs: run bobs, its account of hub in USD/2, from entry 0 of period 0 on and before entry 6 of period 0
only ours: {FORGED_TOLD}
other ends: {"; ".join(LOST_TOLD)}
opening balances           0.00
alike                   2  0.00
quiet                   0  0.00
open                    0  0.00
only ours               1 20.00
only theirs             0  0.00
other amounts           0  0.00
other ends              1 -2.00
come to                   18.00
closing balances          18.00
the books differ: 25.00 and -7.00 come to 18.00
"""


def run(program: Path, *words: object) -> tuple[int, str, str]:
    """The exit status of a program, what it prints, and its errors."""
    done = subprocess.run([str(program), *map(str, words)], stdin=subprocess.DEVNULL, capture_output=True, timeout=60)
    return done.returncode, done.stdout.decode(), done.stderr.decode()


def statements_in(folder: Path, hub: str, bob: str) -> tuple[Path, Path]:
    """The files of both statements, each made by a program from a journal."""
    paths = folder / "ours.csv", folder / "theirs.csv"
    books = ("hub", ("bob", "shop"), hub), ("bobs", ("hub", "bank"), bob)
    for path, (name, peers, journal) in zip(paths, books):
        config, text = folder / f"{name}.toml", folder / f"{name}.journal"
        config.write_text(configuration(peers, 2, name))
        text.write_text(journal)
        status, printed, errors = run(STATEMENT, config, text, peers[0])
        expect(f"the status of the statement of {name}, and its errors", (status, errors), (0, ""))
        path.write_bytes(printed.encode())
    return paths


def reconciled(hub: str, bob: str, *words: str, is_turned: bool = False) -> tuple[int, str, str]:
    """What reconcile.py says of two journals, seen by the hub, or else by bob."""
    with tempfile.TemporaryDirectory() as folder:
        paths = statements_in(Path(folder), hub, bob)
        return run(RECONCILE, *(reversed(paths) if is_turned else paths), *words)


def try_dispute() -> None:
    """One side has a forged credit, and lost an answer: both are named, with the sums of the difference, by whoever
    asks. Without both the books agree."""
    expect("what is told of the dispute", reconciled(HUB, BOB), (DIFFERED, TOLD, ""))
    status, told, _ = reconciled(HUB, BOB, is_turned=True)
    forged = FORGED_TOLD.replace("ours", "theirs")
    lost = [LOST_TOLD[1].replace("theirs", "ours"), LOST_TOLD[0].replace("ours", "theirs"), LOST_TOLD[2]]
    expect("what bob is told", (status, told.splitlines()[2:4]),
           (DIFFERED, [f"only theirs: {forged}", f"other ends: {'; '.join(lost)}"]))
    status, told, _ = reconciled(TAKEN_BACK, BOB)
    expect("what is told once the forged credit is taken back",
           (status, told.splitlines()[2:4], told.splitlines()[-1]),
           (DIFFERED, [f"only ours: {FORGED_TOLD}", "only ours: ours 2026-11-26T20:01:30.000Z entry 6 corrected -20.00 "
                       "(forged); key c1; sum -20.00"], "the books differ: 5.00 and -7.00 come to -2.00"))
    for bob, says in ((BOB, "agree: 7.00 and -7.00 come to 0.00"),
                      ("ilp-journal 1\nend 0\n", "differ: 7.00 and 0.00 come to 7.00")):
        told = reconciled(HONEST, bob)[1]
        expect("without both", told.splitlines()[-1], f"the books {says}")
    status, told, _ = reconciled(BEGUN, "ilp-journal 1\nend 0\n")
    expect("while the first packet is held", (status, told.splitlines()[-1]),
           (AGREED, "the books agree but for what is open: -5.00 and 0.00 come to -5.00"))
    status, told, _ = reconciled(HONEST, BOB, "--all")
    expect("what is listed of all", (status, [line[:12] for line in told.splitlines()[2:5]]),
           (AGREED, ["alike: ours "] * 3))


def try_documents() -> None:
    """The dispute that docs/OPERATING.md shows is this one; two dots stand for lines that are left out."""
    text = (TOP / "docs/OPERATING.md").read_text(encoding="utf-8")
    shown = text.partition("$ examples/reconcile.py ours.csv theirs.csv\n")[2].partition("```")[0].splitlines()
    expect_that("docs/OPERATING.md shows no dispute", len(shown) > 2)
    for line in shown:
        expect_that(f"what docs/OPERATING.md shows is not told: {line}", line == ".." or line in TOLD.splitlines())
