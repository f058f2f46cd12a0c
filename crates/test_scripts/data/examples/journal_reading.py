"""The journals of a connector's periods, read entry by entry as docs/PROTOCOL.md has them ("The text of a journal").

A connector that runs ends periods, and may close, meanwhile: it has other files take the places of those that are
read. So the files of the period that goes on are opened first, and read as they are open.

report_page.py uses it. What is read is never changed. It needs Python 3.11 and nothing else.
"""
from __future__ import annotations

import hashlib
import re
from collections.abc import Iterator
from contextlib import ExitStack
from dataclasses import dataclass
from itertools import islice
from pathlib import Path
from typing import BinaryIO

FORM = re.compile(rb"ilp-journal (?:1|2 ([1-9][0-9]{0,9}))\n")
KEPT = re.compile(r"\.(?:0|[1-9][0-9]{0,9})")
# Of the longest key, and of the longest reason, in hexadecimal.
LONGEST_FIELD = 256


class NoJournal(Exception):
    """Why a file is no journal, or not to be found."""


@dataclass(frozen=True)
class Entry:
    """An entry of a period: its number, its moment, and what it says."""

    number: int
    moment: int
    what: str
    fields: list[str]


@dataclass(frozen=True)
class Part:
    """A period and its open files: a journal's text, and a log that goes on from it, where they are there."""

    period: int
    journal: BinaryIO | None
    log: BinaryIO | None


@dataclass(frozen=True)
class Standing:
    """The open files of a journal: its log and its text, and the log that was set aside, with what the next period
    begins with, where they are there."""

    log: BinaryIO | None
    text: BinaryIO | None
    ended: BinaryIO | None
    following: BinaryIO | None


# How often files are opened, where a connector changes them meanwhile.
OPENINGS = 3


# ---- what stands where

def beside(journal: Path, kind: str) -> Path:
    """The path of a kind of file beside a journal."""
    return journal.with_name(f"{journal.name}.{kind}")


def opened(path: Path, files: ExitStack) -> BinaryIO | None:
    """A file, if it is there."""
    try:
        return files.enter_context(path.open("rb"))
    except (FileNotFoundError, NotADirectoryError):
        return None


def opened_files(journal: Path, files: ExitStack) -> Standing:
    """The files of a journal. The log comes first: a close saves the text with all that it has, and removes it then."""
    log, text = opened(beside(journal, "log"), files), opened(journal, files)
    return Standing(log, text, opened(beside(journal, "ended"), files), opened(beside(journal, "next"), files))


def are_of_one_moment(journal: Path, found: Standing) -> bool:
    """Whether one of the logs goes on from the text; where there is none, whether there is none still."""
    if found.log is None and found.ended is None:
        return not any(beside(journal, kind).exists() for kind in ("log", "ended"))
    return any(going_on(log, found.text) for log in (found.log, found.ended))


def standing_files(journal: Path, files: ExitStack) -> Standing:
    """The files of a journal that belong together. A log of an older text stays what it is."""
    for _ in range(1, OPENINGS):
        found = opened_files(journal, files)
        if are_of_one_moment(journal, found):
            return found
    return opened_files(journal, files)


def period_in(text: BinaryIO | None, path: Path) -> int:
    """The number of the period that a text is of; without a text the first one."""
    if text is None:
        return 0
    text.seek(0)
    found = FORM.fullmatch(text.readline(64))
    if found is None:
        raise NoJournal(f"{path}: its first line is not that of a journal")
    return int(found[1] or 0)


def going_on(log: BinaryIO | None, text: BinaryIO | None) -> BinaryIO | None:
    """The log, where it goes on from this text. One of an older text has nothing that the text has not."""
    if log is None:
        return None
    log.seek(0)
    digest = log.readline(256).rstrip(b"\n").rpartition(b" ")[2]
    return log if digest == digest_of(text) else None


def digest_of(text: BinaryIO | None) -> bytes:
    """The digest by which a log names the text that it goes on from."""
    if text is None:
        return hashlib.sha256().hexdigest().encode()
    text.seek(0)
    return hashlib.file_digest(text, "sha256").hexdigest().encode()


def standing_parts(journal: Path, files: ExitStack) -> list[Part]:
    """The period that goes on, behind the one before where that is not kept yet."""
    found = standing_files(journal, files)
    period = period_in(found.text, journal)
    if (ended := going_on(found.ended, found.text)) is None:
        log = going_on(found.log, found.text)
        if found.text is None and log is None:
            raise NoJournal(f"{journal} is not there")
        return [Part(period, found.text, log)]
    following = found.following
    next_one = [Part(period + 1, following, going_on(found.log, following))] if following is not None else []
    return [Part(period, found.text, ended), *next_one]


def kept_beside(journal: Path) -> dict[int, Path]:
    """The texts of periods that are kept beside a journal, by their numbers."""
    begins = re.escape(journal.name)
    kept: dict[int, Path] = {}
    for path in journal.parent.glob("*"):
        if re.fullmatch(begins + KEPT.pattern, path.name):
            with path.open("rb") as text:
                kept[period_in(text, path)] = path
    return kept


def parts_of(journal: Path) -> Iterator[Part]:
    """All periods whose texts lie beside a journal, in order, and at last its own, which has to be there. A part's
    files are open until the next one is asked for."""
    if not journal.name:
        raise NoJournal(f"{journal} is the name of a folder")
    with ExitStack() as files:
        standing = {part.period: part for part in standing_parts(journal, files)}
        # Looked for behind those, so a period that is kept only now is among them.
        kept = kept_beside(journal)
        for period in sorted({*kept, *standing}):
            if period in standing:
                yield standing[period]
            else:
                with kept[period].open("rb") as text:
                    yield Part(period, text, None)


# ---- entries

def lines_of_journal(text: BinaryIO) -> Iterator[bytes]:
    """The lines of a text's entries. It must be whole."""
    count = 0
    text.seek(0)
    for line in islice(text, 1, None):
        if line.startswith(b"end "):
            if line != b"end %d\n" % count or text.read(1):
                break
            return
        count += 1
        yield line
    raise NoJournal(f"{text.name}: it is not whole")


def lines_of_log(log: BinaryIO) -> Iterator[bytes]:
    """The lines of a log's entries, to the last whole one before a NUL."""
    log.seek(0)
    for line in islice(log, 2, None):
        if b"\0" in line or not line.endswith(b"\n"):
            return
        yield line


def lines_of(part: Part) -> Iterator[bytes]:
    """The lines of a period's entries."""
    if part.journal is not None:
        yield from lines_of_journal(part.journal)
    if part.log is not None:
        yield from lines_of_log(part.log)


def entries_of(part: Part) -> Iterator[Entry]:
    """The entries of a period."""
    for number, line in enumerate(lines_of(part)):
        try:
            moment, _actor, what, *fields = line.decode("ascii").split()
            if max(map(len, fields), default=0) > LONGEST_FIELD:
                raise ValueError
            entry = Entry(number, int(moment), what, fields)
        except ValueError:
            raise NoJournal(f"the entry {number} of the period {part.period} can't be read") from None
        yield entry
