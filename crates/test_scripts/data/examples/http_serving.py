"""A server of HTTP/1.1 that answers each POST by a function: what receiver.py and engine.py have in common.

It needs Python 3.9 and nothing else.
"""
from __future__ import annotations

import errno
import sys
from collections.abc import Callable, Mapping
from dataclasses import dataclass
from http.server import BaseHTTPRequestHandler, ThreadingHTTPServer
from typing import Optional

OCTETS, JSON = "application/octet-stream", "application/json"
MOST_BODY = 65_536


@dataclass(frozen=True)
class Request:
    """A POST: its target, its fields by their names in any case, and its body."""

    target: str
    fields: Mapping[str, str]
    body: bytes


@dataclass(frozen=True)
class Response:
    """A status, and a body of a kind where there is one."""

    status: int
    body: bytes = b""
    kind: str = OCTETS


# Without a response the connection is closed without a word.
Answer = Callable[[Request], Optional[Response]]


class Server(ThreadingHTTPServer):
    """One that answers so, each connection in a thread of its own."""

    daemon_threads = True
    request_queue_size = 128

    def __init__(self, place: tuple[str, int], answer: Answer) -> None:
        super().__init__(place, Handler)
        self.answer = answer

    def handle_error(self, request: object, client_address: object) -> None:
        """A client that went away is no fault; all else is told."""
        if not isinstance(sys.exc_info()[1], OSError):
            super().handle_error(request, client_address)  # type: ignore[arg-type]


class Handler(BaseHTTPRequestHandler):
    """A connection, which carries one request."""

    server: Server
    protocol_version = "HTTP/1.1"
    timeout = 10.0
    # Head and body of a response go out together.
    wbufsize = -1

    def do_POST(self) -> None:
        """Reads a request and answers it."""
        length = self.headers.get("Content-Length", "")
        if not (length.isascii() and length.isdigit()):
            return self.respond(Response(411))
        if int(length) > MOST_BODY:
            return self.respond(Response(413))
        response = self.server.answer(Request(self.path, self.headers, self.rfile.read(int(length))))
        if response is None:
            self.close_connection = True
            return None
        return self.respond(response)

    def do_GET(self) -> None:
        """Peers and engines only post."""
        self.respond(Response(405))

    def respond(self, response: Response) -> None:
        """Writes a response, behind which the connection is closed."""
        self.send_response(response.status)
        if response.body:
            self.send_header("Content-Type", response.kind)
        self.send_header("Content-Length", str(len(response.body)))
        self.send_header("Connection", "close")
        self.end_headers()
        self.wfile.write(response.body)

    def log_message(self, *_: object) -> None:
        """What is done with a request is told by the function that answers it."""


def tell(line: str) -> None:
    """A line on standard output, at once and as a whole."""
    sys.stdout.write(line + "\n")
    sys.stdout.flush()


def place_of(text: str) -> tuple[str, int]:
    """The IP and the port of IP:PORT."""
    host, _, port = text.rpartition(":")
    if not host or not (port.isascii() and port.isdigit()) or int(port) > 65_535:
        raise ValueError(f"{text!r} is no IP:PORT")
    return host, int(port)


def why_not(place: str, fault: Exception) -> str:
    """Why nothing can listen there, and what to do."""
    if isinstance(fault, OSError) and fault.errno == errno.EADDRINUSE:
        return f"{place} is in use: stop what has it, or name another place by --listen"
    return f"can't listen at {place}: {fault}: name a place of this machine by --listen, such as 127.0.0.1:7002"


def serve(place: str, answer: Answer) -> int:
    """Serves at IP:PORT until it is interrupted; the exit status."""
    try:
        server = Server(place_of(place), answer)
    except (OSError, ValueError) as fault:
        print(why_not(place, fault), file=sys.stderr)
        return 1
    tell(f"listening at {place}")
    try:
        server.serve_forever()
    except KeyboardInterrupt:
        pass
    finally:
        server.server_close()
    return 0
