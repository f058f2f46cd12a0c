"""The program as the quick build makes it, which checks as it runs and proves nothing.

`rt try` builds a program in a temporary folder, runs it there, and removes it. So it is given a folder of its
own, and a pipe as the program's configuration: the program waits at the pipe until somebody has written,
and meanwhile it is copied.
"""
import contextlib
import errno
import os
import shutil
import subprocess
import tempfile
import time
from pathlib import Path

from demonstration.failing import TOP, BadInput

# In seconds: how long the build and its end may take, and how often they are looked for.
WITHIN, ENDS_WITHIN, PAUSE = 1800, 30.0, 0.1

PROVED = "take the proved program, of scripts/build.sh"


def expect_kit() -> None:
    """Refuses a machine without the kit."""
    if shutil.which("rt") is None:
        raise BadInput("rt is not on the path: install the Rattle kit, or name a program by CONNECTOR=PATH, without "
                       "--quick")


def build(target: Path) -> None:
    """Builds the program, and puts it there."""
    with tempfile.TemporaryDirectory(prefix="demonstration-build-") as room:
        pipe, told = Path(room, "configuration"), Path(room, "told")
        os.mkfifo(pipe)
        with open(told, "wb") as lines:
            words = ["rt", "try", "--steps", "1", "--seconds", str(WITHIN), "--", "serve", str(pipe)]
            builder = subprocess.Popen(words, cwd=TOP / "crates/connector", env={**os.environ, "TMPDIR": room},
                                       stdin=subprocess.DEVNULL, stdout=lines, stderr=lines)
        try:
            copy_while_it_waits(builder, pipe, told, target)
            with contextlib.suppress(subprocess.TimeoutExpired):
                builder.wait(ENDS_WITHIN)
        finally:
            stop(builder)


def copy_while_it_waits(builder: subprocess.Popen[bytes], pipe: Path, told: Path, target: Path) -> None:
    """Copies the program once it waits for its configuration, and then lets it end."""
    writer = await_reader(builder, pipe, told)
    try:
        target.parent.mkdir(parents=True, exist_ok=True)
        shutil.copy(program_below(pipe.parent), target)
        target.chmod(0o755)
    finally:
        os.close(writer)


def await_reader(builder: subprocess.Popen[bytes], pipe: Path, told: Path) -> int:
    """The writing end of a pipe, once the program reads from it."""
    end = time.monotonic() + WITHIN
    while time.monotonic() < end:
        try:
            return os.open(pipe, os.O_WRONLY | os.O_NONBLOCK)
        except OSError as fault:
            if fault.errno != errno.ENXIO:
                raise
        if builder.poll() is not None:
            lines = told.read_text(errors="replace").splitlines() or [""]
            raise BadInput(f"rt try has built no program ({lines[-1]}): {PROVED}")
        time.sleep(PAUSE)
    raise BadInput(f"rt try has built no program within {WITHIN} seconds: {PROVED}")


def program_below(room: Path) -> Path:
    """The one program in the folder of a build."""
    found = [file for file in room.rglob("*") if file.is_file() and os.access(file, os.X_OK)]
    if len(found) != 1:
        raise BadInput(f"rt try leaves {len(found)} programs where one was looked for, as other kits may: {PROVED}")
    return found[0]


def stop(builder: subprocess.Popen[bytes]) -> None:
    """Ends the build, if it runs."""
    if builder.poll() is None:
        builder.terminate()
        builder.wait()
