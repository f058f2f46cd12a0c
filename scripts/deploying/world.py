"""A connector between its two fronts: certificates, nginx, a receiver and peers behind TLS."""
import contextlib
import os
import shutil
import socket
import ssl
import subprocess
import sys
import threading
import time
from pathlib import Path

from cases.case import Differs, expect_that
from cases.laboratory import Laboratory
from cases.messages import HERE, response
from cases.program import Setup
from cases.stand_ins import Behaviour, Received, StandIn, answers, free_port
from deploying.programs import DEPLOY, EXAMPLES
from scenes import FULFILL

# In seconds: what a start takes at most beside other work, and how often it is looked for.
WITHIN, PAUSE = 20.0, 0.01

NGINX = shutil.which("nginx", path=f"{os.environ.get('PATH', os.defpath)}:/usr/sbin")

# The names of the two files, and a third one that is nobody's here.
OUR_NAME, PEER_NAME, OTHER_NAME = "connector.example", "peer.example", "other.example"

MAIN = """{user}
daemon off;
pid nginx.pid;
worker_processes 1;
events {{ worker_connections 1024; }}
http {{
    access_log off;
    client_body_temp_path body;
    proxy_temp_path proxy;
    fastcgi_temp_path fastcgi;
    uwsgi_temp_path uwsgi;
    scgi_temp_path scgi;
{includes}
}}
"""

# In front of the receiver: what a peer would have.
RECEIVER = """server {{
    listen {here}:{port} ssl;
    ssl_certificate {folder}/{name}.crt;
    ssl_certificate_key {folder}/{name}.key;
    location / {{ proxy_pass http://{here}:{receiver}; }}
}}
"""


class TlsStandIn(StandIn):
    """A peer's server behind TLS."""

    def __init__(self, behaviour: Behaviour, certificate: Path) -> None:
        self.context = ssl.SSLContext(ssl.PROTOCOL_TLS_SERVER)
        self.context.load_cert_chain(f"{certificate}.crt", f"{certificate}.key")
        # By which names it was asked for.
        self.names: list[str | None] = []
        self.context.sni_callback = lambda _, name, __: self.names.append(name)
        super().__init__(behaviour)

    def meet(self, link: socket.socket) -> None:
        """As any, once both agree on TLS."""
        with contextlib.suppress(OSError), self.context.wrap_socket(link, server_side=True) as inner:
            super().meet(inner)


def in_chunks(octets: bytes) -> bytes:
    """A 200 in chunks."""
    chunks = b"".join(b"%x\r\n%b\r\n" % (len(part), part) for part in (octets[:5], octets[5:], b""))
    return b"HTTP/1.1 200 OK\r\nContent-Type: application/octet-stream\r\nTransfer-Encoding: chunked\r\n\r\n" + chunks


def replaced(name: str, words: dict[str, str]) -> str:
    """A file of examples/deploy with other ports, names and paths. Each of them must be there."""
    text = (DEPLOY / name).read_text()
    for old, new in words.items():
        expect_that(f"{name} has no {old!r}", old in text)
        text = text.replace(old, new)
    return text


class World:
    """All that runs. Peers of the connector are alice, who sends, and five to whom packets go: bob is the receiver,
    `chunks` answers in chunks, `held` when it is told to, `misnamed` has a certificate of another name, and
    `stranger` one that nobody vouches for."""

    def __init__(self, laboratory: Laboratory) -> None:
        self.laboratory = laboratory
        # That `held` may answer.
        self.release = threading.Event()
        self.folder = laboratory.folder()
        for name in (OUR_NAME, PEER_NAME, OTHER_NAME, "stranger"):
            self.make_certificate(name, PEER_NAME if name == "stranger" else name)
        self.write_trusted()
        self.peers = self.start_peers()
        self.fronts = {name: free_port() for name in ("bob", *self.peers)}
        self.setup = self.configure()
        self.port = free_port()
        self.receiver_port, self.bob_port = free_port(), free_port()
        self.start_receiver()
        self.program = laboratory.start(self.setup)
        self.program.await_listening()
        self.start_nginx()

    # ---- certificates

    def make_certificate(self, file: str, name: str) -> None:
        """A certificate that vouches for itself."""
        words = ["openssl", "req", "-x509", "-newkey", "ec", "-pkeyopt", "ec_paramgen_curve:prime256v1", "-nodes",
                 "-days", "2", "-subj", f"/CN={name}", "-addext", f"subjectAltName=DNS:{name}",
                 "-keyout", str(self.folder / f"{file}.key"), "-out", str(self.folder / f"{file}.crt")]
        subprocess.run(words, check=True, capture_output=True)

    def write_trusted(self) -> None:
        """Those that the front to peers trusts."""
        texts = [(self.folder / f"{name}.crt").read_text() for name in (PEER_NAME, OTHER_NAME)]
        (self.folder / "trusted.crt").write_text("".join(texts))

    # ---- peers

    def start_peers(self) -> dict[str, TlsStandIn]:
        """The stand-ins behind TLS."""
        fulfills = answers(response(200, FULFILL))

        def held(received: Received, link: socket.socket, stop: threading.Event) -> None:
            self.release.wait(WITHIN)
            fulfills(received, link, stop)

        behaviours = {"chunks": (answers(in_chunks(FULFILL)), PEER_NAME), "held": (held, PEER_NAME),
                      "misnamed": (fulfills, OTHER_NAME), "stranger": (fulfills, "stranger")}
        return {name: self.start_peer(behaviour, file) for name, (behaviour, file) in behaviours.items()}

    def start_peer(self, behaviour: Behaviour, file: str) -> TlsStandIn:
        """One of them."""
        peer = TlsStandIn(behaviour, self.folder / file)
        self.laboratory.stack.callback(peer.close)
        return peer

    def configure(self) -> Setup:
        """The connector's configuration, in which each peer's host is its server of the front."""
        setup = Setup(bob=self.fronts["bob"], top={"workers": 64})
        for name in self.peers:
            setup.routes[f"test.{name}"] = name
            setup.further += setup.peer(name, f"from-{name}", f"to-{name}", f"{HERE}:{self.fronts[name]}", None)
        return setup

    def start_receiver(self) -> None:
        """Bob, who has the preimage of prepare.py."""
        words = [sys.executable, str(EXAMPLES / "receiver.py"), "--listen", f"{HERE}:{self.receiver_port}",
                 "--token", self.setup.to_bob]
        self.run("receiver", words, self.receiver_port)

    # ---- nginx

    def start_nginx(self) -> None:
        """Both fronts, and the receiver's."""
        files = {"peers.conf": self.front_for_peers(), "receiver.conf": RECEIVER.format(
            here=HERE, port=self.bob_port, folder=self.folder, name=PEER_NAME, receiver=self.receiver_port)}
        ports = {"bob": self.bob_port, **{name: peer.port for name, peer in self.peers.items()}}
        for name, port in ports.items():
            files[f"to-{name}.conf"] = self.front_to(self.fronts[name], port)
        for name, text in files.items():
            (self.folder / name).write_text(text)
        includes = "\n".join(f"    include {self.folder}/{name};" for name in files)
        user = "user root;" if os.geteuid() == 0 else ""
        (self.folder / "nginx.conf").write_text(MAIN.format(user=user, includes=includes))
        words = [NGINX or "nginx", "-p", f"{self.folder}/", "-e", "error.log", "-c", "nginx.conf"]
        self.run("nginx", words, self.port)

    def front_for_peers(self) -> str:
        """The front for peers."""
        path = f"{self.folder}/{OUR_NAME}"
        return replaced("nginx-peers.conf", {
            "listen 443 ssl;": f"listen {HERE}:{self.port} ssl;",
            f"/etc/ssl/{OUR_NAME}.crt": f"{path}.crt",
            f"/etc/ssl/private/{OUR_NAME}.key": f"{path}.key",
            "http://127.0.0.1:7768": f"http://{self.setup.listen}"})

    def front_to(self, front: int, port: int) -> str:
        """The front to a peer."""
        return replaced("nginx-outbound.conf", {
            "listen 127.0.0.1:7001;": f"listen {HERE}:{front};",
            f"https://{PEER_NAME}/": f"https://{HERE}:{port}/",
            "/etc/ssl/certs/ca-certificates.crt": f"{self.folder}/trusted.crt"})

    def nginx_said(self) -> str:
        """The lines of nginx so far."""
        return (self.folder / "error.log").read_text(errors="replace")

    # ---- programs

    def run(self, name: str, words: list[str], port: int) -> None:
        """Starts a program that ends with the world, and waits until it listens."""
        told = self.folder / f"{name}.said"
        with open(told, "wb") as lines:
            process = subprocess.Popen(words, stdin=subprocess.DEVNULL, stdout=lines, stderr=lines)
        self.laboratory.stack.callback(process.wait)
        self.laboratory.stack.callback(process.terminate)
        end = time.monotonic() + WITHIN
        while True:
            with contextlib.suppress(OSError), socket.create_connection((HERE, port)):
                return
            if process.poll() is not None or time.monotonic() > end:
                raise Differs(f"{name} does not listen: {told.read_text(errors='replace')[-600:]!r}")
            time.sleep(PAUSE)
