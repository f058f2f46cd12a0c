#!/usr/bin/env python3
"""Rows for the tests of HTTP messages, made from the standards alone.

Writes requests and responses (RFC 9110, RFC 9112) and mistakes in them, each with what a reader is
to answer by docs/PROTOCOL.md. With the argument `requests` or `responses` it prints the rows of
crates/test_http/data, in which `%XX` is an octet, and `<N PART>` stands for N times the part; with
`lines` it prints the program's whole output. It shares nothing with the crates.
"""
import hashlib
import sys

HEAD, FIELDS, BODY = 16_384, 64, 65_536
PREPARE = bytes.fromhex(
    "0c430000000000000064323032353031303130303030333030303066687aadf862bd776c8fc18b8e9f8e20089714856e"
    "e233b3902a591d0d5f292508746573742e626f6200")
FULFILL = bytes.fromhex("0d21" + "00" * 33)
TOKEN = set(b"!#$%&'*+-.^_`|~0123456789abcdefghijklmnopqrstuvwxyzABCDEFGHIJKLMNOPQRSTUVWXYZ")


def escaped(octets):
    """An octet that is no visible ASCII, and each that a row gives a meaning, as `%XX`."""
    return "".join(chr(o) if 32 < o < 127 and o not in b"%<>" else " " if o == 32 else f"%{o:02X}"
                   for o in octets)


def printed(octets):
    """Octets as they are printed: escaped, and more than 64 of them as their number and SHA-256."""
    if len(octets) > 64:
        return f"<{len(octets)} octets, {hashlib.sha256(octets).hexdigest()}>"
    return f"<{escaped(octets)}>"


class Row:
    """Octets in parts; a part is octets, or a count with octets that stand so often."""

    def __init__(self, *parts):
        self.parts = parts

    def text(self):
        text = "".join(f"<{p[0]} {escaped(p[1])}>" if isinstance(p, tuple) else escaped(p)
                       for p in self.parts)
        return "%20" + text[1:] if text.startswith(" ") else text

    def octets(self):
        return b"".join(p[1] * p[0] if isinstance(p, tuple) else p
                        for p in self.parts)


def request(line=b"POST /ilp HTTP/1.1", fields=(b"Host: h", b"Content-Length: 3"), body=b"abc",
            end=b"\r\n", parts=()):
    head = line + end + b"".join(f + end for f in fields)
    return Row(head, *parts, end + body)


def sized(value, body=b"abc"):
    return request(fields=(b"Host: h", b"Content-Length: " + value), body=body)


def told(target, lines, body):
    """A request with these field lines: by name in order of their first, blanks at both ends dropped."""
    named = {}
    for line in lines:
        name, _, value = line.partition(b":")
        named.setdefault(name.lower(), []).append(value.strip(b" \t"))
    fields = "".join(f" {escaped(name)}: {printed(value)}" for name, values in named.items() for value in values)
    return f"{printed(target)}{fields} body {printed(body)}{SETTLED}"


# An answer that rests on no octet that follows ends so. Without this, the next read decides.
SETTLED = ", whatever follows"
EARLY = "a bad request"
BAD, METHOD, LENGTH, LARGE, FIELDS_LARGE = (
    answer + SETTLED for answer in (
        "a bad request", "the method is not POST", "no length of the body", "the body is too long",
        "the head is too long"))


def taken(target=b"/ilp", line=None, fields=(b"Host: h", b"Content-Length: 3"), body=b"abc", size=3,
          end=b"\r\n"):
    """A request that is one, and what is told of it, with the first `size` octets of the body."""
    line = line or b"POST " + target + b" HTTP/1.1"
    return request(line=line, fields=fields, body=body, end=end), told(target, fields, body[:size])


LENGTH_LINE = b"Content-Length: 3"


def long_head(size):
    """A request whose head has so many octets, and its long field."""
    start = b"POST /ilp HTTP/1.1\r\n" + LENGTH_LINE + b"\r\nX: "
    many = size - len(start) - 4
    return Row(start, (many, b"a"), b"\r\n\r\nabc"), b"X:" + b"a" * many


def many_fields(count, more=b""):
    """A request with so many fields, and then these octets before the head ends."""
    return Row(b"POST /ilp HTTP/1.1\r\nContent-Length: 3\r\n", (count - 1, b"a: b\r\n"), more + b"\r\nabc")


def requests():
    fields = (b"Host: h", b"Authorization: Bearer a-token", b"Content-Length: 69")
    yield taken(fields=fields, body=PREPARE, size=69)
    yield taken(fields=fields, body=PREPARE + b"POST / HTTP/1.1\r\n", size=69)
    yield taken()
    # the request line
    for method in (b"GET", b"HEAD", b"PUT", b"DELETE", b"OPTIONS", b"TRACE", b"CONNECT", b"PATCH",
                   b"post", b"Post", b"POSTS", b"POS", b"!#$%&'*+-.^_`|~"):
        yield request(line=method + b" /ilp HTTP/1.1"), METHOD
    for line in (b"", b"POST", b"POST /ilp", b"POST  /ilp HTTP/1.1", b"POST /ilp  HTTP/1.1",
                 b"POST /ilp HTTP/2.0", b"POST /ilp HTTP/1.2", b"POST /ilp http/1.1",
                 b"POST /ilp HTTP/1.1 ", b" POST /ilp HTTP/1.1", b"PO(ST /ilp HTTP/1.1",
                 b"POST\t/ilp HTTP/1.1", b"POST /i\0lp HTTP/1.1", b"POST /i\x7flp HTTP/1.1",
                 b"POST /i\tlp HTTP/1.1", b"POST /ilp HTTP/1", b"POST /ilp HTTP/11",
                 b"POST /ilp HTTP/1.", b"POST /ilp ", b"@ /ilp HTTP/1.1",
                 b"POST /i\xfflp HTTP/1.1", b"POST /i\xc3 HTTP/1.1"):
        if line:
            yield request(line=line), BAD
    yield taken(line=b"POST /ilp HTTP/1.0")
    for target in (b"/", b"*", b"/accounts/bob/settlements", b"http://h/ilp", b"/ilp?x=1", b"/%20",
                   b"/a//b/../c", b"\xc3\xa9", b"/~!$&'()+,;=:@", b"\"<>[]^`{|}"):
        yield taken(target)
    # empty lines before it, and line ends
    for before in (b"\r\n", b"\n\r\n\n"):
        row = Row(before + b"POST /ilp HTTP/1.1\r\nContent-Length: 3\r\n\r\nabc")
        yield row, told(b"/ilp", [LENGTH_LINE], b"abc")
    yield Row(b"\rPOST /ilp HTTP/1.1\r\nContent-Length: 3\r\n\r\nabc"), BAD
    yield taken(end=b"\n")
    yield request(end=b"\r"), BAD
    yield request(end=b"\r\r\n"), BAD
    yield request(end=b"\n\r"), BAD
    # field names: tokens, and no blank before the colon
    for octet in range(256):
        if octet in (9, 10, 13, 32, 58) or octet > 127 and octet not in (128, 255):
            continue
        if octet in TOKEN and octet not in b"!#~0z":
            continue
        if octet not in TOKEN and octet not in b"\0\x01\x1f\"(),/;<=>?@[\\]{}\x7f\x80\xff":
            continue
        fields = (b"X" + bytes([octet]) + b": a", LENGTH_LINE)
        yield taken(fields=fields) if octet in TOKEN else (request(fields=fields), BAD)
    for field in (b"X : a", b"X\t: a", b" X: a", b"\tX: a", b": a", b"X", b"X Y: a", b"X: a\r\n b",
                  b"X: a\r\n\tb", b"Content-Length : 3"):
        yield request(fields=(field, LENGTH_LINE)), BAD
    # field values: anything but the controls, and blanks at both ends are dropped
    for value in (b"", b" ", b"\t \t", b"a", b" a ", b"a b", b"a\tb", b"\xff", b"\x80\x9f", b"a:b:c",
                  b"\"q\"", b"~"):
        yield taken(fields=(b"X:" + value, LENGTH_LINE))
    for value in (b"a\0b", b"a\x01", b"a\x1f", b"a\x7f", b"a\rb", b"\x0b", b"a\x08"):
        yield request(fields=(b"X: " + value, LENGTH_LINE)), BAD
    # Content-Length: digits, however many
    for value in (b"3", b"03", b"00000000000000000000000000000000000000003", b" 3 ", b"\t3\t",
                  b"  3", b"3  "):
        yield taken(fields=(b"Host: h", b"Content-Length: " + value))
    for value in (b"", b" ", b"+3", b"-3", b"-0", b"3.0", b"3e0", b"0x3", b"3 3", b"3,3", b"3, 3",
                  b"a", b"3a", b"\xb3", b"3;", b"\"3\"", b"3\t3", b"+", b"65537a", b"99999999999999999999 "
                  b"1"):
        yield sized(value), BAD
    for value in (b"65537", b"65540", b"70000", b"99999", b"065537", b"4294967299",
                  b"18446744073709551616", b"18446744073709551619",
                  b"340282366920938463463374607431768211459", b"9" * 80):
        yield sized(value), LARGE
    for size, body in ((0, b""), (0, b"abc"), (2, b"abc")):
        yield taken(fields=(b"Host: h", b"Content-Length: %d" % size), body=body, size=size)
    yield sized(b"4", b"abc"), EARLY
    yield (Row(b"POST /ilp HTTP/1.1\r\nContent-Length: 65536\r\n\r\n", (BODY, b"a")),
           told(b"/ilp", [b"Content-Length: 65536"], b"a" * BODY))
    yield Row(b"POST /ilp HTTP/1.1\r\nContent-Length: 65536\r\n\r\n", (BODY - 1, b"a")), EARLY
    yield Row(b"POST /ilp HTTP/1.1\r\nContent-Length: 65537\r\n\r\n", (BODY + 1, b"a")), LARGE
    # which field counts
    for name in (b"content-length", b"CONTENT-LENGTH", b"cOnTeNt-LeNgTh"):
        yield taken(fields=(b"Host: h", name + b":3"))
    yield request(fields=(b"Host: h",)), LENGTH
    yield request(fields=()), LENGTH
    yield request(fields=(b"Content-Lengt: 3", b"Content-Lengthh: 3")), LENGTH
    for two in ((b"3", b"3"), (b"3", b"4"), (b"4", b"3"), (b"", b"3"), (b"3", b"x"),
                (b"65537", b"3"), (b"3", b"65537")):
        yield request(fields=tuple(b"Content-Length: " + v for v in two)), BAD
    yield request(fields=(b"Content-Length: 3", b"content-length: 3")), BAD
    for coding in (b"chunked", b"identity", b"gzip, chunked", b"", b"x"):
        yield request(fields=(b"Transfer-Encoding: " + coding, b"Content-Length: 3")), LENGTH
        yield request(fields=(b"transfer-encoding: " + coding,)), LENGTH
    yield request(fields=(b"Content-Length: 3", b"TRANSFER-ENCODING: chunked")), LENGTH
    yield request(fields=(b"Content-Length: 3", b"Content-Length: 3", b"Transfer-Encoding: x")), LENGTH
    yield request(fields=(b"Transfer-Encoding : chunked", b"Content-Length: 3")), BAD
    # what comes first
    yield request(line=b"GET /ilp HTTP/1.1", fields=()), METHOD
    yield request(line=b"GET /ilp HTTP/1.1", fields=(b"Content-Length: x",)), METHOD
    yield request(line=b"GET /ilp HTTP/1.1", fields=(b"Content-Length: 65537",)), METHOD
    yield request(line=b"GET /ilp HTTP/1.1", fields=(b"X : a",)), BAD
    # how long a head may be
    row, field = long_head(HEAD)
    yield row, told(b"/ilp", [LENGTH_LINE, field], b"abc")
    yield long_head(HEAD + 1)[0], FIELDS_LARGE
    yield many_fields(FIELDS), told(b"/ilp", [LENGTH_LINE] + [b"a: b"] * (FIELDS - 1), b"abc")
    yield many_fields(FIELDS + 1), FIELDS_LARGE
    # too many fields and a bad line: what comes first
    yield many_fields(FIELDS + 1, b"X : a\r\n"), FIELDS_LARGE
    yield Row(b"POST /ilp HTTP/1.1\r\nX : a\r\n", (FIELDS + 1, b"a: b\r\n"), b"\r\nabc"), BAD
    yield Row((HEAD - 1, b"A")), EARLY
    yield Row((HEAD, b"A")), FIELDS_LARGE
    yield Row((HEAD // 2 + 1, b"\r\n")), FIELDS_LARGE
    yield Row(b"POST /", (HEAD, b"a")), FIELDS_LARGE
    yield Row((HEAD, b"A"), b"\0"), FIELDS_LARGE
    # the octet that makes it no head is the one that makes it too long, and the one before that
    yield Row((HEAD - 1, b"A"), b"\0"), FIELDS_LARGE
    yield Row((HEAD - 2, b"A"), b"\0A"), BAD
    # octets that are no request
    for octets in (b"\0", b"\x16\x03\x01\x02\x00\x01\x00\x01\xfc\x03\x03",
                   b"PRI * HTTP/2.0\r\n\r\nSM\r\n\r\n", b"HTTP/1.1 200 OK\r\n\r\n"):
        yield Row(octets), BAD
    # octets that may become one
    for octets in (b"hello", b"\r\n", b"\r\n\r\n"):
        yield Row(octets), EARLY


def response(line=b"HTTP/1.1 200 OK", fields=(b"Content-Length: 3",), body=b"abc", end=b"\r\n"):
    return Row(line + end + b"".join(f + end for f in fields) + end + body)


def to_end(code, body):
    """A response that may go on, since it announces no length."""
    return f"{code} body {printed(body)}"


def answered(code, body):
    return to_end(code, body) + SETTLED


EARLY_RESPONSE = "a bad response"
BAD_RESPONSE, LONG_RESPONSE = EARLY_RESPONSE + SETTLED, "the response is too long" + SETTLED


ABC = answered(200, b"abc")


def responses():
    yield response(fields=(b"Content-Type: application/octet-stream", b"Content-Length: 35",
                           b"Connection: close"), body=FULFILL), answered(200, FULFILL)
    yield response(line=b"HTTP/1.1 201 Created", fields=(), body=b"x"), to_end(201, b"x")
    yield Row(b"hello"), BAD_RESPONSE
    yield response(), ABC
    yield response(body=b"abcdef"), ABC
    yield response(body=b"ab"), EARLY_RESPONSE
    yield response(fields=()), to_end(200, b"abc")
    yield response(fields=(), body=b""), to_end(200, b"")
    for code in (b"100", b"101", b"103", b"199", b"204", b"304", b"404", b"409", b"500", b"599",
                 b"000", b"999"):
        yield response(line=b"HTTP/1.1 " + code + b" x"), answered(int(code), b"abc")
    for line in (b"HTTP/1.1 200", b"HTTP/1.1 200 ", b"HTTP/1.0 200 OK", b"HTTP/1.1 200 a b\tc",
                 b"HTTP/1.1 200 \xff"):
        yield response(line=line), ABC
    for line in (b"HTTP/2.0 200 OK", b"HTTP/1.1 20 OK", b"HTTP/1.1 2000 OK", b"HTTP/1.1  200 OK",
                 b"HTTP/1.1 20a OK", b"HTTP/1.1 -20 OK", b"http/1.1 200 OK", b"HTTP/1.1", b" HTTP/1.1 200 OK",
                 b"HTTP/1.1 200 \0"):
        yield response(line=line), BAD_RESPONSE
    for value in (b"+3", b"", b"3 3", b"x", b"3,3"):
        yield response(fields=(b"Content-Length: " + value,)), BAD_RESPONSE
    yield response(fields=(b"Content-Length: 3", b"Content-Length: 3")), BAD_RESPONSE
    yield response(fields=(b"content-LENGTH:\t003 ",)), ABC
    yield response(fields=(b"Content-Length: 65537",)), LONG_RESPONSE
    yield response(fields=(b"Content-Length: 99999999999999999999999",)), LONG_RESPONSE
    for coding in (b"chunked", b"identity", b""):
        yield response(fields=(b"Transfer-Encoding: " + coding,)), answered(200, b"")
    yield response(fields=(b"Transfer-Encoding: chunked", b"Content-Length: 65537")), answered(200, b"")
    yield response(fields=(b"Content-Length: 3", b"transfer-encoding: x")), answered(200, b"")
    yield Row(b"HTTP/1.1 200 OK\r\nContent-Length: 65536\r\n\r\n", (BODY, b"a")), answered(200, b"a" * BODY)
    yield Row(b"HTTP/1.1 200 OK\r\n\r\n", (BODY, b"a")), to_end(200, b"a" * BODY)
    yield Row(b"HTTP/1.1 200 OK\r\n\r\n", (BODY + 1, b"a")), LONG_RESPONSE
    start = b"HTTP/1.1 200 OK\r\nX: "
    for size in (HEAD, HEAD + 1):
        tail = b"\r\n\r\n"
        answer = to_end(200, b"b" * BODY) if size == HEAD else LONG_RESPONSE
        yield Row(start, (size - len(start) - 4, b"a"), tail, (BODY, b"b")), answer
    yield Row(start, (HEAD - len(start) - 4, b"a"), b"\r\n\r\n", (BODY + 1, b"b")), LONG_RESPONSE
    for count in (FIELDS, FIELDS + 1):
        answer = to_end(200, b"abc") if count == FIELDS else LONG_RESPONSE
        yield Row(b"HTTP/1.1 200 OK\r\n", (count, b"a: b\r\n"), b"\r\nabc"), answer
    # too many fields and a bad line: a bad head is bad, however many fields it has
    for lines in ((FIELDS + 1, b"a: b\r\n"), b"X : a\r\n"), (b"X : a\r\n", (FIELDS + 1, b"a: b\r\n")):
        yield Row(b"HTTP/1.1 200 OK\r\n", *lines, b"\r\nabc"), BAD_RESPONSE
    yield Row(b"HTTP/1.1 200 OK\r\n", (FIELDS + 1, b"a: b\r\n")), EARLY_RESPONSE
    yield response(fields=(b"X : a",)), BAD_RESPONSE
    yield response(fields=(b"X: a\r\n b",)), BAD_RESPONSE
    yield response(fields=(b"X: a\0",)), BAD_RESPONSE
    yield response(end=b"\n"), ABC
    yield response(end=b"\r"), BAD_RESPONSE


STATUSES = (
    ("200 OK", ""), ("201 Created", ""), ("400 Bad Request", ""),
    ("401 Unauthorized", "WWW-Authenticate: Bearer\r\n"), ("403 Forbidden", ""), ("404 Not Found", ""),
    ("405 Method Not Allowed", "Allow: POST\r\n"), ("409 Conflict", ""), ("411 Length Required", ""),
    ("413 Content Too Large", ""), ("431 Request Header Fields Too Large", ""), ("502 Bad Gateway", ""),
    ("503 Service Unavailable", ""))
KINDS = ("application/octet-stream", "application/json", "text/plain")
BODIES = (b"", b'{"amount":"199","scale":2}')
LONG = b"a" * 1024


def written_response(status, own, kind, body):
    typed = f"Content-Type: {kind}\r\n" if body else ""
    return (f"HTTP/1.1 {status}\r\n{own}{typed}Content-Length: {len(body)}\r\n"
            f"Connection: close\r\n\r\n").encode() + body


def written_request(own, kind, body):
    return (f"POST /ilp HTTP/1.1\r\nHost: 127.0.0.1:7001\r\nContent-Type: {kind}\r\n"
            f"Content-Length: {len(body)}\r\n{own}Connection: close\r\n\r\n").encode() + body


def written():
    for status, own in STATUSES:
        for kind in KINDS:
            yield from (written_response(status, own, kind, body) for body in BODIES)
    for own in ("", "Authorization: Bearer to-bob\r\n", "Idempotency-Key: r1-5\r\n"):
        for kind in KINDS:
            yield from (written_request(own, kind, body) for body in BODIES)
    yield written_response(*STATUSES[0], KINDS[2], LONG)
    yield written_request("", KINDS[0], LONG)


def shown(octets):
    """The octets as a line: a long body as its length."""
    head, _, body = octets.partition(b"\r\n\r\n")
    tail = f"<{len(body)} octets>" if len(body) > 64 else body.decode()
    return head.decode().replace("\r\n", "|") + "||" + tail


def cut_lines():
    """A whole message of L octets, read in each prefix and with a read that fails at each octet."""
    whole = request(fields=(b"Host: h", b"Authorization: Bearer a-token", b"Content-Length: 69"),
                    body=PREPARE).octets()
    size = len(whole)
    yield (f"of a request of {size} octets {size} proper prefixes are a bad request and look "
           f"unfinished, and {size} reads that fail are told")
    in_body = len(PREPARE)
    yield (f"of a request of {size} octets the first {size - in_body} prefixes look to be in the head, and "
           f"the {in_body} after them in a body that is whole at {size} octets")
    whole = response(fields=(b"Content-Type: application/octet-stream", b"Content-Length: 35",
                             b"Connection: close"), body=FULFILL).octets()
    yield cut_response(len(whole), len(whole), 0, len(whole))
    # One that goes on to the end of the input: up to its body it is one without a body.
    size = len(b"HTTP/1.1 201 Created\r\n\r\nx")
    yield cut_response(size, size - 1, 1, size)
    # Its first octet begins no head, so that nothing is read behind it.
    yield cut_response(len(b"hello"), len(b"hello"), 0, 1)


def cut_response(size, bad, empty, failed):
    return (f"of a response of {size} octets {bad} proper prefixes are a bad response, {empty} one "
            f"without a body, and {failed} reads that fail are told")


def lines():
    for row, answer in requests():
        yield f"{row.text()}: {answer}"
    for row, answer in responses():
        yield f"{row.text()}: {answer}"
    for octets in written():
        yield f"{shown(octets)}: stopped at each of {len(octets)} octets"
    yield from cut_lines()
    yield "4096 reads of one octet: /ilp, 2 values, a body of 3"
    yield "4097 reads of one octet: too many reads"
    yield "4097 octets of a head, one by one: too many reads"
    yield "4096 reads of one octet of a response: 200, a body of 3"
    yield "4097 reads of one octet of a response: too many reads"


def main():
    if sys.argv[1:] not in (["requests"], ["responses"], ["lines"]):
        sys.exit("http.py requests | responses | lines")
    what = sys.argv[1]
    if what == "lines":
        print("\n".join(lines()))
    else:
        rows = {"requests": requests, "responses": responses}[what]
        print("\n".join(row.text() for row, _ in rows()))


main()
