"""The disk as a program finds it: busy, broken or full while it is to be, and how often it was to keep a file."""
import shutil
import subprocess
import time
from collections import Counter
from pathlib import Path
from typing import Self

from cases.case import expect_that
from cases.laboratory import Laboratory


def library_of(name: str, folder: Path) -> Path | None:
    """What stands in this file of C here, as a library in the folder that a program preloads, where there is a C
    compiler."""
    if shutil.which("cc") is None:
        return None
    library = folder / f"{name}.so"
    subprocess.run(["cc", "-O1", "-shared", "-fPIC", "-o", library, Path(__file__).with_name(name)], check=True)
    return library


class Disk:
    """A library that a program preloads (disk.c), and the files by which it tells and is told."""

    def __init__(self, folder: Path, library: Path) -> None:
        self.library = library
        self.told = folder / "told"
        # The disk is so while these are there.
        self.busy, self.broken, self.full = folder / "busy", folder / "broken", folder / "full"
        self.hung, self.loose, self.open = folder / "hung", folder / "loose", folder / "open"

    @classmethod
    def of(cls, laboratory: Laboratory) -> Self | None:
        """One for a case, where there is a C compiler."""
        folder = laboratory.folder()
        library = library_of("disk.c", folder)
        return cls(folder, library) if library is not None else None

    def environment(self) -> dict[str, str]:
        """What has a program find this disk."""
        return {"LD_PRELOAD": str(self.library), "DISK_TOLD": str(self.told), "DISK_BUSY": str(self.busy),
                "DISK_BROKEN": str(self.broken), "DISK_FULL": str(self.full), "DISK_HUNG": str(self.hung),
                "DISK_LOOSE": str(self.loose), "DISK_OPEN": str(self.open)}

    def syncs(self) -> Counter[str]:
        """How often each call was made so far that has the disk keep a file."""
        return Counter(self.told.read_text().splitlines() if self.told.exists() else [])

    def await_sync(self, before: Counter[str], within: float = 5.0) -> None:
        """Waits for such a call that was made since."""
        end = time.monotonic() + within
        while not self.syncs() - before:
            expect_that(f"no sync was made within {within} seconds", time.monotonic() < end)
            time.sleep(0.005)
