"""Memory that is denied while the program has packets in flight."""
import os
import subprocess
from pathlib import Path
from typing import Self

from cases.case import case, expect
from cases.crowds import Crowd, Hall
from cases.disks import library_of
from cases.journals import Kept
from cases.laboratory import Laboratory, close, packet_request
from cases.messages import response, soon
from cases.program import Setup
from scenes import FULFILL, fulfill

# In octets: the most of a packet's data, and what makes a head nearly as long as one may be.
LONGEST_DATA, LONG_FIELD = 32_767, 16_000

LONG_FULFILL = fulfill(data=bytes(LONGEST_DATA))

# Fulfills, and the heads behind which a peer answers them; by the last one they last until the connection ends.
REPLIES = [(FULFILL, f"Content-Length: {len(FULFILL)}"),
           (LONG_FULFILL, f"Content-Length: {len(LONG_FULFILL)}\r\nX: {'a' * LONG_FIELD}"),
           (LONG_FULFILL, "Connection: close")]


class Memory:
    """A library that a program preloads (denied.c), and the file by which it is told to deny all memory."""

    def __init__(self, folder: Path, library: Path) -> None:
        self.library, self.denied = library, folder / "denied"

    @classmethod
    def of(cls, laboratory: Laboratory) -> Self | None:
        """One for a case, where there is a C compiler, and the program takes its memory of the C library."""
        folder = laboratory.folder()
        if (library := library_of("denied.c", folder)) is None:
            return None
        own = cls(folder, library)
        own.denied.touch()
        checked = subprocess.run([laboratory.binary, "check", "-"], env={**os.environ, **own.environment()},
                                 capture_output=True, text=True, timeout=10.0)
        own.denied.unlink()
        return own if checked.stdout == "refused 44 Memory\n" else None

    def environment(self) -> dict[str, str]:
        """What has a program ask here."""
        return {"LD_PRELOAD": str(self.library), "DENIED": str(self.denied)}


@case
def replies_without_memory(laboratory: Laboratory) -> None:
    """Where all memory is denied when a peer's Fulfills come, the first is handed on all the same, short or long, and
    the next once memory is there: none is lost. This is left out where there is no C compiler, and of a program that
    has an allocator of its own."""
    if (memory := Memory.of(laboratory)) is None:
        return
    for packet, fields in REPLIES:
        bob, crowd = Hall(laboratory), Crowd(laboratory)
        kept = Kept(laboratory, Setup(bob=bob.port, top={"workers": 1}))
        program = kept.serve(environment=memory.environment())
        waiting = crowd.send_all(program.setup.peers_port, [packet_request(program, soon(1)) for _ in range(3)])
        bob.await_count(len(waiting))
        memory.denied.touch()
        bob.speak(f"HTTP/1.1 200 OK\r\n{fields}\r\n\r\n".encode() + packet)
        first = crowd.await_any(waiting, 5.0)
        expect("what the first is answered", first.answer, response(200, packet))
        memory.denied.unlink()
        crowd.await_ended(waiting, 5.0)
        expect("what all are answered", {client.answer for client in waiting}, {response(200, packet)})
        close(program, alice=-len(waiting), bob=len(waiting))
