"""What examples that print do where standard output fails."""
import os
import subprocess
import sys
import tempfile
from collections.abc import Iterator
from itertools import product
from pathlib import Path

import report_metrics
from cases.case import expect
from statements.disputed import BOB, HUB, TOP, statements_in

NO_OUTPUT = 3


def commands(folder: Path) -> Iterator[list[object]]:
    """Programs that print, each with arguments by which it does: as much as it has, and its help."""
    ours, theirs = statements_in(folder, HUB, BOB)
    report, reply = folder / "report", folder / "reply"
    report.write_bytes(report_metrics.sample())
    # A Fulfill of the preimage that prepare.py looks for, without data.
    reply.write_text(f"0d21{bytes(32).hex()}00")
    yield from (["reconcile.py", ours, theirs], ["reconcile.py", "--help"], ["report_metrics.py", report],
                ["report_page.py", folder / "hub.toml", folder / "hub.journal"], ["report_page.py", "--help"],
                ["prepare.py", "100", "test.bob"], ["prepare.py", "100", "test.bob", "--hex"],
                ["prepare.py", "--reply", "--hex"], ["prepare.py", "--help"])


def told_by(command: list[object], folder: Path, output: str, *files: int) -> tuple[int, str]:
    """The exit status of a program, and its errors, where a shell redirects its output, perhaps to one of the files."""
    words = [sys.executable, "-B", str(TOP / "examples" / str(command[0])), *map(str, command[1:])]
    with (folder / "reply").open("rb") as reply:
        done = subprocess.run(["sh", "-c", f'exec "$@" {output}', "sh", *words], stdin=reply, capture_output=True,
                              timeout=60, pass_fds=files)
    return done.returncode, done.stderr.decode()


def try_outputs() -> None:
    """A standard output that is full, that nobody reads, or that is closed is told in one line, with a status of its
    own."""
    reader, writer = os.pipe()
    os.close(reader)
    outputs = {">/dev/full": "failed: No space left on device", f">&{writer}": "failed: Broken pipe",
               ">&-": "is closed"}
    with tempfile.TemporaryDirectory() as name:
        folder = Path(name)
        for command, output in product(commands(folder), outputs):
            program = str(command[0]).replace("metrics.py", "metrics")
            expect(f"{command} {output}", told_by(command, folder, output, writer),
                   (NO_OUTPUT, f"{program}: standard output {outputs[output]}\n"))
            expect(f"the status of {command} {output}, without errors",
                   [told_by(command, folder, f"{output} {errors}", writer)[0] for errors in ("2>/dev/full", "2>&-")],
                   [NO_OUTPUT, NO_OUTPUT])
    os.close(writer)
