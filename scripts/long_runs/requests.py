"""Requests by the rules (RFC 9110, RFC 9112): what is read of any octets before the end of input, or
with which status they are refused."""
import re
from dataclasses import dataclass

MOST_HEAD, MOST_FIELDS, MOST_BODY = 16_384, 64, 65_536

TOKEN = rb"[!#$%&'*+.^_`|~0-9A-Za-z-]"
# A target may have octets beyond ASCII, of which the rules do not say whether they are taken.
TARGET = rb"[!-~\x80-\xff]"
VALUE = rb"[\t -~\x80-\xff]"
EMPTY_LINES = re.compile(rb"(?:\r?\n)*")
REQUEST_LINE = re.compile(rb"(%s+) (%s+) HTTP/1\.[01]\r?\n" % (TOKEN, TARGET))
FIELD_LINE = re.compile(rb"(%s+):(%s*)\r?\n" % (TOKEN, VALUE))
LAST_LINE = re.compile(rb"\r?\n")

# What may yet become one of these, where no more octets are there.
REQUEST_BEGUN = re.compile(
    rb"\r?|%s+|%s+ %s*|%s+ %s+ (?:H|HT|HTT|HTTP|HTTP/|HTTP/1|HTTP/1\.|HTTP/1\.[01]\r?)?"
    % (TOKEN, TOKEN, TARGET, TOKEN, TARGET))
FIELD_BEGUN = re.compile(rb"\r?|%s+(?::%s*\r?)?" % (TOKEN, VALUE))


class Status(Exception):
    """A request that is refused, with one of these statuses."""

    def __init__(self, *codes: int) -> None:
        super().__init__(*codes)
        self.codes = codes


@dataclass(frozen=True)
class Request:
    """Field values are without the blanks at their ends. A doubtful one may be refused by 400 as
    well."""

    method: bytes
    target: bytes
    fields: tuple[tuple[bytes, bytes], ...]
    body: bytes = b""
    doubtful: bool = False

    def values(self, name: bytes) -> list[bytes]:
        return [value for other, value in self.fields if other.lower() == name]


def read_head(octets: bytes) -> tuple[Request, int]:
    """The head at the front of the octets, and its length."""
    window = octets[:MOST_HEAD]
    place = match_end(EMPTY_LINES, window, 0)
    line = REQUEST_LINE.match(window, place)
    if line is None:
        raise unfinished(REQUEST_BEGUN, window, place)
    place = line.end()
    fields: list[tuple[bytes, bytes]] = []
    while LAST_LINE.match(window, place) is None:
        field = FIELD_LINE.match(window, place)
        if len(fields) == MOST_FIELDS:
            # One more is begun; whether a fault in it is met first is not said.
            raise Status(431) if field else Status(400, 431)
        if field is None:
            raise unfinished(FIELD_BEGUN, window, place)
        fields.append((field[1], field[2].strip(b" \t")))
        place = field.end()
    head = Request(line[1], line[2], tuple(fields), doubtful=not line[2].isascii())
    return head, match_end(LAST_LINE, window, place)


def match_end(form: re.Pattern[bytes], octets: bytes, place: int) -> int:
    found = form.match(octets, place)
    return place if found is None else found.end()


def unfinished(begun: re.Pattern[bytes], window: bytes, place: int) -> Status:
    """Why there is no whole line: it can't become one, the input has ended, or it is too long."""
    may_become = begun.fullmatch(window, place) is not None
    return Status(431) if may_become and len(window) == MOST_HEAD else Status(400)


def read_request(octets: bytes) -> Request:
    """The request at the front of the octets, behind which input ends."""
    head, place = read_head(octets)
    lengths = head.values(b"content-length")
    if head.method != b"POST":
        raise refusal(head, 405)
    if head.values(b"transfer-encoding") or not lengths:
        raise refusal(head, 411)
    if len(lengths) > 1 or re.fullmatch(rb"[0-9]+", lengths[0]) is None:
        raise Status(400)
    length = int(lengths[0]) if len(lengths[0].lstrip(b"0")) <= 9 else MOST_BODY + 1
    if length > MOST_BODY:
        raise refusal(head, 413)
    body = octets[place:place + length]
    if len(body) < length:
        raise Status(400)
    return Request(head.method, head.target, head.fields, body, head.doubtful)


def refusal(head: Request, code: int) -> Status:
    return Status(code, 400) if head.doubtful else Status(code)


def needs_no_more(octets: bytes) -> bool:
    """Whether the connector can answer before the input ends."""
    try:
        head, place = read_head(octets)
    except Status as status:
        return status.codes == (431,)
    try:
        read_request(octets)
    except Status as status:
        if status.codes != (400,):
            return True
        lengths = head.values(b"content-length")
        return len(lengths) > 1 or not re.fullmatch(rb"[0-9]+", lengths[0])
    return True
