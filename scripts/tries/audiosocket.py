"""A client of AudioSocket that stands for Asterisk: calls an office whose register hears MF keys, and brings its other leg.

usage: audiosocket.py PORT FOLDER

It is written after the published description of the protocol, and knows nothing of the server in examples/asterisk: a
frame is a byte of its kind, two of its length, the high one first, and so many more. A leg begins with its id; sound is
signed samples of 16 bits, the low byte first, 8,000 a second; either side hangs up by a frame of kind 0. Whether Asterisk
itself does so was not tried.

FOLDER has sounds: `number`, of a number that is keyed on; `doubted`, the same with a key that is missing; `broken`, a
keying that breaks off. The id of the other leg is read in its file `placed`. What that leg hears first is written to
`heard`. A leg whose call is refused has to hear reorder: 480 and 620 Hz, half of the time.
"""
import cmath
import re
import socket
import struct
import sys
import time
import uuid
from pathlib import Path

HANG_UP, ID, DTMF, SOUND, ERROR = 0x00, 0x01, 0x03, 0x10, 0xFF
RATE = 8000
FRAME = 320  # bytes, 20 ms
SILENCE = bytes(FRAME)
MOST_SECONDS = 60
FIRST, SECOND, THIRD = (f"40325ec2-5efd-4bd3-805f-53576e581d1{number}" for number in (1, 2, 3))
# Whether they come after an id, and what comes: no id, a short one, one that is cut, another rate, an error, a cut frame.
WRONG = (
    (False, b"\x10\x00\x02ab"),
    (False, b"\x01\x00\x02ab"),
    (False, b"\x01\x00"),
    (True, b"\x12\x00\x02ab"),
    (True, b"\xff\x00\x01\x02"),
    (True, b"\x10\x01\x40ab"),
)


def fail(text: str) -> None:
    """Ends with a line."""
    sys.exit(f"audiosocket.py: {text}")


def connected(port: int) -> socket.socket:
    """A connection, as soon as somebody listens."""
    until = time.monotonic() + MOST_SECONDS
    while True:
        try:
            return socket.create_connection(("127.0.0.1", port), MOST_SECONDS)
        except ConnectionRefusedError:
            if time.monotonic() > until:
                fail("nobody listens")
            time.sleep(0.1)


class Leg:
    """A leg, and whether it was hung up."""

    def __init__(self, port: int, name: str):
        self.socket, self.is_over = connected(port), False
        self.send(ID, uuid.UUID(name).bytes)

    def send(self, kind: int, payload: bytes = b"") -> None:
        """Sends a frame."""
        self.socket.sendall(bytes([kind]) + struct.pack(">H", len(payload)) + payload)

    def _read(self, count: int) -> bytes:
        """So many bytes, or fewer where the connection ends."""
        come = b""
        while len(come) < count:
            piece = self.socket.recv(count - len(come))
            if not piece:
                break
            come += piece
        return come

    def frame(self, sound: bytes = SILENCE) -> bytes:
        """Sends a frame of sound, and returns that of the answer, which has to be as long."""
        self.send(SOUND, sound)
        head = self._read(3)
        if not head or head[0] == HANG_UP:
            self.is_over = True
            return b""
        answer = self._read(struct.unpack(">H", head[1:])[0])
        if head[0] != SOUND or len(answer) != len(sound):
            fail(f"a frame of {len(sound)} bytes is answered by one of kind {head[0]} with {len(answer)}")
        return answer

    def sound(self, path: Path) -> bytes:
        """Sends a sound, and returns what is heard meanwhile."""
        samples = path.read_bytes()
        return b"".join(self.frame(samples[at : at + FRAME]) for at in range(0, len(samples), FRAME))

    def end(self) -> None:
        """Hangs up, and waits for the end."""
        self.send(HANG_UP)
        while self._read(1):
            pass
        self.socket.close()


def other_leg(placed: Path, leg: Leg) -> str:
    """The id by which the other leg is to come. Asterisk keeps the first one meanwhile."""
    until = time.monotonic() + MOST_SECONDS
    while True:
        come = re.search(r"AudioSocket ([0-9a-f-]{36})\b", placed.read_text() if placed.exists() else "")
        if come:
            return come[1]
        if time.monotonic() > until:
            fail("no other leg is asked for")
        if any(leg.frame()):
            fail("something sounds on the leg that keyed")
        time.sleep(0.02)


def call(port: int, folder: Path) -> None:
    """A call from its keys to its release."""
    leg = Leg(port, FIRST)
    leg.send(DTMF, b"5")  # is for somebody else
    if any(leg.frame(bytes(160)) + leg.frame(bytes(480)) + leg.sound(folder / "number")):
        fail("something sounds before the number is there")
    other = Leg(port, other_leg(folder / "placed", leg))
    said, answered = ([struct.pack("<h", sign * number) * 160 for number in range(1, 51)] for sign in (1, -1))
    silent = [SILENCE] * 150  # three seconds
    came = [(leg.frame(one), other.frame(two)) for one, two in zip(silent + said, silent + answered)]
    back, heard = zip(*came)
    folder.joinpath("heard").write_bytes(b"".join(heard[:150]))
    if list(heard[150:]) != said or list(back[151:]) != answered[:-1]:
        fail("the two legs do not hear each other")
    leg.end()
    if other.frame() or not other.is_over:
        fail("the end of a leg does not hang up the other one")


def power(samples: tuple, hz: int) -> float:
    """The part of the power of samples that a frequency has."""
    turned = sum(it * cmath.exp(-2j * cmath.pi * hz * n / RATE) for n, it in enumerate(samples))
    return 2 * abs(turned) ** 2 / len(samples) / max(1, sum(it * it for it in samples))


def refused(port: int, folder: Path) -> None:
    """A call that breaks off, and hears reorder."""
    leg = Leg(port, SECOND)
    leg.sound(folder / "broken")
    until = time.monotonic() + MOST_SECONDS
    while not any(leg.frame()):
        if time.monotonic() > until:
            fail("a call that is refused hears nothing")
    heard = struct.unpack(f"<{100 * FRAME // 2}h", b"".join(leg.frame() for _ in range(100)))
    silent = sum(it == 0 for it in heard) / len(heard)
    if not 0.45 < silent < 0.55 or min(power(heard, 480), power(heard, 620)) < 0.2:
        fail("a call that is refused does not hear reorder")
    leg.end()


def doubted(port: int, folder: Path) -> None:
    """A number that lacks a key, whose leg ends before the other one comes."""
    leg = Leg(port, THIRD)
    leg.sound(folder / "doubted")
    leg.end()


def wrong(port: int) -> None:
    """Frames that are none: before an id, and after one."""
    for begins, frames in WRONG:
        it = Leg(port, THIRD).socket if begins else connected(port)
        it.sendall(frames)
        it.shutdown(socket.SHUT_WR)
        while it.recv(FRAME):
            pass


def main() -> None:
    """Makes all calls."""
    port, folder = int(sys.argv[1]), Path(sys.argv[2])
    call(port, folder)
    refused(port, folder)
    doubted(port, folder)
    wrong(port)


main()
