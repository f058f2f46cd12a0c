"""The lines that a running connector tells on standard error: `TIME LEVEL TEXT`, and the forms of their
texts."""
import datetime
import re
from dataclasses import dataclass

from cases.case import Differs, expect_that

# A time in UTC (RFC 3339), a level and a text.
WHOLE = re.compile(r"(\d{4}-\d\d-\d\dT\d\d:\d\d:\d\d\.\d{3})Z (info|warn|error) (\S.*)")

# The report's lines come after this one, without a time, where standard output fails.
FOLLOWS = "error the report can't be written to standard output, and follows here"
LINES_OF_A_REPORT = 11

# In seconds: how far times may go back, since threads look at the clock before they write.
SLACK = 1.0

# The doublings of a wait, in seconds, and how much later a line may be on a machine with other work.
WAITS = (1.0, 2.0, 4.0, 8.0, 16.0, 32.0, 60.0)
EARLY, TARDY = 0.1, 1.5

NAME = r"[a-z0-9_-]{1,16}"
PLACE = r"\S{1,64}"
SECONDS = r"(1 second|\d+ seconds)"
SIZES = r"\d+ workers, \d+ in flight with \d+ octets"
WAIT = rf"\d+ (waits? )?for (peer|the engine of) {NAME}"
MORE = r"( \(([1-9]\d*) more since the last line\))?"
# The hold of a packet that a peer may have fulfilled all the same.
HELD = r" \(hold \d+ of \d+, condition [0-9a-f]{8}\)"
KEY = r'("[!#-~]{1,128}"|0x[0-9a-f]{2,256})'
REASON = r'("[ !#-~]{1,128}"|0x[0-9a-f]{2,256})'
QUANTITY = r"\d+ at scale \d+"
# What stands under a key that another settlement or correction was told under. A fall has a minus.
STANDING = rf"which (credit \d+ has with {QUANTITY}|correction \d+ has with -?{QUANTITY})"
WHY = (r"(no IP:PORT in digits|not reached: .+|no answer in time|no response of HTTP: .+"
       r"|status \d{3})")
BAD_200 = ("a 200 without a Fulfill or a Reject that can be read: it may have fulfilled the packet, at "
           "the connector's cost")
KEPT_OPEN = "kept open, since its engine said neither yes nor no"
REACHED_AGAIN = r"reached again, after (1 failure|\d+ failures)"

# A path, as it is quoted in a line.
PATH = r'"[^"]*"'

# What is told of a log that can't be written, each time that it is seen, once it is written anew, and at the close.
UNKEPT = "journal: what is booked is not kept: packets get T00, credits 503, and no settlement is asked for"
KEPT_AGAIN = "info journal: all that is booked is kept again"
INCOMPLETE = "journal: its log lacks what was booked last: keep the report until the journal is saved"

# What a connector that serves tells to do where it can't write.
WAITS_FOR_ROOM = ("make room for it, and don't kill the connector: it tries again, and what was booked last may be in "
                  "its memory alone")

# What is told of a disk that takes long to keep a journal, once it has, and of who is told a Fulfill too late.
LOG_GONE = (r"error journal: its log was removed or replaced: what was told since the journal was saved stands in memory "
            r"alone until the next entry, with which the log is made anew: don't kill the connector")
DISK_TAKES = (rf"error journal: the disk has not kept what it was given, for {SECONDS} now: no Fulfill is told until it "
              "has")
DISK_HAS_KEPT = rf"info journal: the disk has kept what it was given, after {SECONDS}"
TOLD_LATE = (rf"error fulfill told to (?P<peer>{NAME}) ({SECONDS}|\d+\.\d{{3}} seconds) too late{HELD}: (?P=peer) may not "
             rf"pay for it, and the book has it paid{MORE}")

# What is told of each peer to which holds were open at a sudden stop.
OPEN_HOLDS = (rf"\d+ holds that went on to (?P<peer>{NAME}) were open, of \d+ in all: what (?P=peer) fulfilled of "
              r"them it may say that it is owed; the last that was handed on may be missing here")

# Why a start is refused by a log, and by one that was set aside, which is told without a time.
OF_ANOTHER_TEXT = (rf"journal {PATH}: its log goes on from another text, and the journal lacks what the log has: put "
                   r"both back as they stood together, or move the log away and lose what it has")
ENDED_OF_ANOTHER_TEXT = (rf"journal {PATH}: the log of an ended period beside it, named .ended, is of another text, and "
                         r"what it has stands nowhere else: put both back as they stood together, or move that one "
                         r"away and lose what it has")

# What is told of a period's file that has another text, and of a peer that a next period leaves out.
ANOTHER_PERIOD = (rf"{PATH} has another text than the period that is to be kept there, and is never written again: "
                  "move it away, if it is of another journal")
NO_PERIODS = "`new_period_at` is passed over: no journal is kept, so no period ends by itself"
NO_NEXT = (rf"journal {PATH}: no next period can begin: refused .+: this one goes on, until the journal is full")
KEYS_LEFT_OUT = (rf"{NAME} is left out with \d+ keys of its settlements: where a peer of this name is added again, what "
                 "its engine tells again is credited again")

# What is told at the start where no journal is kept.
NO_JOURNAL = ("warn no journal is kept: balances and keys are forgotten at the end, so each start needs a "
              "`run` that no earlier one had")

# What is told where no new settlement to a peer is asked for, and where they are again.
PAUSED = "payouts: {name}'s are paused, until the next start or /accounts/{name}/resume"
GO_ON = "payouts: {name}'s go on"

# What a line begins with that tells what is to be looked at in a configuration.
WARNING = "warn configuration: "

# Each line has one of these forms, level and text.
FORMS = [re.compile(form) for form in (
    rf"info listening at {PLACE} for peers and at {PLACE} for engines: {SIZES}, \d+ peers?, .+",
    r"warn open files: \d+ at most, and this configuration may need \d+: set ulimit -n \d+",
    r"error can't listen at .+: .+",
    r"error a thread can't be started",
    r"error can't open what a thread waits with: .+: raise the limit of open files",
    r"info closing: no connection is accepted any more",
    re.escape(FOLLOWS),
    rf"warn (peer|engine of) {NAME} at {PLACE}: {WHY}({HELD})?{MORE}",
    rf"error peer {NAME} at {PLACE}: {BAD_200}({HELD})?{MORE}",
    rf"info (peer|engine of) {NAME} at {PLACE}: {REACHED_AGAIN}",
    rf"info settlement \d+ with {NAME} of \d+: confirmed",
    rf"warn settlement \d+ with {NAME} of \d+: refused with the status 4\d\d, and the amount is back; "
    rf"the next one waits {SECONDS}",
    rf"warn settlement \d+ with {NAME}: {KEPT_OPEN}{MORE}",
    rf"info {PAUSED.format(name=NAME)}",
    rf"info {GO_ON.format(name=NAME)}",
    rf"info credit \d+ of {NAME}: \d+, key {KEY}",
    rf"info correction \d+ of {NAME}: -?\d+, key {KEY}: {REASON}",
    rf"error settlement of {NAME} refused, and not credited: {QUANTITY} under the key {KEY}, {STANDING}: see which one "
    rf"its engine means{MORE}",
    rf"error correction of {NAME} refused, and not booked: -?{QUANTITY} under the key {KEY}, {STANDING}: see which one "
    rf"is meant, and for which reason{MORE}",
    rf"warn wrong tokens: (1 request|\d+ requests) got 401(, \d+ from {PLACE})?",
    rf"info rejects to {NAME}: .+",
    rf"warn work waits for its turn, for {SECONDS} now: of \d+ in flight "
    rf"({WAIT}(, {WAIT})*|none waits for a peer or an engine){MORE}",
    rf"info no work waits for its turn any more, after {SECONDS}",
    r"warn journal: \d+ of \d+ entries, (8\d|9[0-4]) percent",
    r"error journal: \d+ of \d+ entries, (9[5-9]|100) percent",
    r"error journal: full, with \d+ of \d+ entries: packets get T03, and credits 503",
    re.escape(NO_JOURNAL),
    rf"{WARNING}.+",
    rf"info journal {PATH}: (begun with its \d+ entries|saved with \d+ entries)",
    rf"info journal {PATH}: its log is of an older text, and the journal has all that it has: a start removes it",
    rf"warn journal {PATH}: not there yet, .+",
    rf"warn journal {PATH}: a connector stopped without saving it, and \d+ entries come from its log",
    rf"warn journal {PATH}: {OPEN_HOLDS}",
    rf"warn journal {PATH}: can't be saved: .+: make room for it, it is tried again each second for a minute",
    rf"warn journal {PATH}: its last entry is of .+",
    rf"error journal {PATH}: can't be saved: .+: (make room for it, and start again: nothing is lost|{WAITS_FOR_ROOM})",
    rf"error journal {PATH}: (not saved.+|another connector has it: .+|a connector stopped .+)",
    rf"error journal {PATH}: {PATH} was removed or replaced, so another connector may have it: .+",
    rf"error journal {PATH}: {PATH} has changed since it was read, so another connector writes to it: .+",
    LOG_GONE,
    rf"error journal {PATH}: (the period \d+ has ended beside it, .+|it isn't there, and what was kept beside it is: .+)",
    rf"error journal {PATH}: (it is the new one, but .+|a settlement with .+|what it counts .+)",
    r"error compare with peers and engines what was booked since, .+",
    rf"error can't (make|read|use|lock) {PATH}: .+",
    rf"info log {PATH}: begun, and synced before anybody is told",
    rf"warn log {PATH}: begun, and left to the system to sync: a power cut may take what was told",
    rf"error can't write {PATH}: .+: what is booked from here on is not on the disk: it is tried anew each second",
    rf"error {re.escape(UNKEPT)}{MORE}",
    KEPT_AGAIN,
    DISK_TAKES,
    DISK_HAS_KEPT,
    TOLD_LATE,
    rf"error {re.escape(INCOMPLETE)}",
    rf"warn can't remove {PATH}: .+: the journal has all that it has, and the next start removes it",
    rf"warn {PATH} lies there, .+",
    rf"info journal {PATH}: the period \d+ has ended, and its \d+ entries are kept as {PATH}",
    rf"info journal {PATH}: the period \d+ begins with its \d+ entries",
    rf"warn {KEYS_LEFT_OUT}",
    rf"error {ANOTHER_PERIOD}",
    rf"error {NO_NEXT}",
    rf"warn {re.escape(NO_PERIODS)}",
    rf"warn journal {PATH}: it begins with \d+ entries that were brought forward, so a new period begins only behind .+",
    r"info configuration: read again, and in force: ok \d+ peers \d+ assets \d+ routes",
    rf"error can't write {PATH}: .+: (make room for it, and give the command again: nothing is lost|{WAITS_FOR_ROOM})",
    rf"error clock: \d+\.\d{{3}} seconds behind the last moment of the book, so that packets come too late{MORE}",
    r"info clock: no longer behind the last moment of the book",
)]


@dataclass(frozen=True)
class Line:
    """A line: its time in seconds since 1970, and its level and text."""

    moment: float
    said: str

    def left_out(self) -> int:
        """How many of its kind were left out before it, as its end tells."""
        found = re.fullmatch(f".*?{MORE}", self.said)
        return int(found[2]) if found is not None and found[2] else 0


def read_line(text: str) -> Line:
    """A line of a running connector."""
    found = WHOLE.fullmatch(text)
    if found is None:
        raise Differs(f"a line on standard error is not TIME LEVEL TEXT: {text!r}")
    try:
        then = datetime.datetime.fromisoformat(found[1] + "+00:00")
    except ValueError:
        raise Differs(f"a line on standard error has no time of a calendar: {text!r}") from None
    return Line(then.timestamp(), f"{found[2]} {found[3]}")


def split_report(errors: str) -> tuple[list[str], str]:
    """The whole lines on standard error that have a time, and the report among them."""
    texts = errors.rpartition("\n")[0].splitlines()
    for place, text in enumerate(texts, start=1):
        if text.endswith(f" {FOLLOWS}"):
            end = place + LINES_OF_A_REPORT
            if any(text.startswith("period ") for text in texts[end:end + 1]):
                end += 1
            report = "".join(line + "\n" for line in texts[place:end])
            return texts[:place] + texts[end:], report
    return texts, ""


def read_lines(errors: str) -> list[Line]:
    """The whole lines on standard error that have a time."""
    return [read_line(text) for text in split_report(errors)[0]]


def check_lines(errors: str, first: float, last: float) -> None:
    """Each line has one of the forms, and a time between two moments that does not go back."""
    latest = first
    for line in read_lines(errors):
        expect_that(f"a line on standard error has none of the forms: {line.said!r}",
                    any(form.fullmatch(line.said) for form in FORMS))
        expect_that(f"the time of a line goes back from {latest} to {line.moment}: {line.said!r}",
                    line.moment >= latest - SLACK)
        expect_that(f"the time of a line is to come: {line.moment} at {last}: {line.said!r}",
                    line.moment <= last + SLACK)
        latest = max(latest, line.moment)


def expect_longer_waits(what: str, lines: list[Line]) -> None:
    """What repeats without an end is told again 1, 2, 4, .. seconds after the last time."""
    for wait, before, line in zip(WAITS, lines, lines[1:]):
        took = line.moment - before.moment
        expect_that(f"{what}: told again after {took:.2f} seconds, and not after {wait}",
                    wait - EARLY <= took <= wait + TARDY)
