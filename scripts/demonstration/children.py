"""Programs that run beside the demonstration, and end with it."""
import re
import subprocess
import time
from collections import Counter
from pathlib import Path

from demonstration.failing import Differs

# In seconds: how long something may take that is done at once on a machine without other work; and how
# often it is looked for.
WITHIN, PAUSE = 30.0, 0.01


class Child:
    """A program, whose two streams go to files."""

    def __init__(self, name: str, words: list[str], folder: Path) -> None:
        self.name = name
        self.output = folder / f"{name}.out"
        self.errors = folder / f"{name}.err"
        # How many lines of a stream with a form were awaited.
        self.awaited: Counter[tuple[Path, str]] = Counter()
        with open(self.output, "wb") as output, open(self.errors, "wb") as errors:
            self.process = subprocess.Popen(words, stdin=subprocess.DEVNULL, stdout=output, stderr=errors)

    def lines(self, file: Path, form: str) -> list[re.Match[str]]:
        """The whole lines of a stream that have this form, so far."""
        lines = file.read_text(errors="replace").rpartition("\n")[0].splitlines()
        return [found for line in lines if (found := re.fullmatch(form, line))]

    def printed(self, form: str) -> list[re.Match[str]]:
        """Those of standard output."""
        return self.lines(self.output, form)

    def await_printed(self, form: str) -> re.Match[str]:
        """The next line of standard output with this form, once it is there."""
        return self.await_line(self.output, form)

    def await_told(self, form: str) -> re.Match[str]:
        """The same of standard error, behind the time that a connector's lines begin with."""
        return self.await_line(self.errors, rf"\S+Z {form}")

    def await_line(self, file: Path, form: str) -> re.Match[str]:
        """The first line of a stream with this form that was not awaited before, once it is there."""
        end, place = time.monotonic() + WITHIN, self.awaited[file, form]
        while len(lines := self.lines(file, form)) <= place:
            if self.process.poll() is not None:
                raise Differs(f"{self.name} has ended with status {self.process.returncode}: {self.last_words()}")
            if time.monotonic() > end:
                raise Differs(f"{self.name} has not said {form!r} within {WITHIN:.0f} seconds: {self.last_words()}")
            time.sleep(PAUSE)
        self.awaited[file, form] += 1
        return lines[place]

    def last_words(self) -> str:
        """The last line of standard error, or else of standard output."""
        lines = (self.output.read_text(errors="replace") + self.errors.read_text(errors="replace")).splitlines()
        return lines[-1] if lines else "it said nothing"

    def end(self) -> None:
        """Waits until it has ended, which it must do with the status 0."""
        try:
            status = self.process.wait(WITHIN)
        except subprocess.TimeoutExpired:
            raise Differs(f"{self.name} has not ended within {WITHIN:.0f} seconds") from None
        if status != 0:
            raise Differs(f"{self.name} has ended with status {status}: {self.last_words()}")

    def kill(self) -> None:
        """Ends it where it stands."""
        self.process.kill()
        self.process.wait()

    def stop(self) -> None:
        """Ends it, if it runs."""
        if self.process.poll() is None:
            self.process.terminate()
            try:
                self.process.wait(WITHIN)
            except subprocess.TimeoutExpired:
                self.process.kill()
                self.process.wait()
