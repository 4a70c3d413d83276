#!/usr/bin/env python3
"""An office between two legs of Asterisk: hears MF keys on one by AudioSocket, and keys the number on by the other.

usage: audiosocket.py PORT TABLE [WORDS...]      listens at 127.0.0.1; WORDS go to mftandem, after TABLE

The register of the office (mfrx and mftandem, which have to be on PATH) hears each leg that comes with an id of its
own. Standard output gets an object for each call that it tells, as `mftandem --json` writes it, with the `id` of the
leg. One that is keyed, and whose leg is there still, has a `next` too, the id with which the other leg is to come:
its keys are sounded there (mftone), and then the two legs hear each other. A leg whose call is refused hears reorder.
Of a doubtful number the object that `mfrx --json` writes comes before that of its call.

Each frame of sound is answered by one of its length, so Asterisk keeps the time. A leg that ends hangs up the other.
"""
import asyncio
import json
import os
import shutil
import struct
import subprocess
import sys
import uuid

HANG_UP, ID, DTMF, SOUND, ERROR = 0x00, 0x01, 0x03, 0x10, 0xFF
PROGRAMS = ("mfrx", "mftandem", "mftone")
# What a leg says waits for the other one by so many bytes at most, 100 ms.
MOST_WAITING = 1600
# Reorder for 5 seconds, as the precise tone plan has it.
REORDER = "480+620:250 silence:250 " * 10
# As of programs that SIGPIPE and SIGINT end.
READER_IS_GONE, INTERRUPTED = 141, 130


class LegError(Exception):
    """A leg is given up, and the text says why."""


def tell(name: str, told: dict) -> None:
    """Tells an object of a leg."""
    try:
        print(json.dumps({"id": name, **told}), flush=True)
    except BrokenPipeError:
        os._exit(READER_IS_GONE)


async def run(*words: str):
    """Runs a program between two pipes."""
    return await asyncio.create_subprocess_exec(*words, stdin=subprocess.PIPE, stdout=subprocess.PIPE)


async def sound_of(keys: str, *words: str) -> bytes:
    """The sound of keys and tones, as mftone names them."""
    sender = await run("mftone", "--keys", keys, "--format", "s16", *words)
    return (await sender.communicate())[0]


async def next_frame(reader) -> tuple:
    """The kind and the payload of the next frame. The end of a connection hangs up, too."""
    try:
        kind, length = struct.unpack(">BH", await reader.readexactly(3))
    except asyncio.IncompleteReadError as end:
        if end.partial:
            raise
        return HANG_UP, b""
    return kind, await reader.readexactly(length)


class Leg:
    """A connection of Asterisk: the ear that hears it, the keys or tones that it is to get, and the leg it speaks with."""

    def __init__(self, writer):
        self.name, self.ear, self.sound, self.other, self.is_over = "a leg", None, b"", None, False
        self._writer, self._said = writer, b""

    def send(self, kind: int, payload: bytes = b"") -> None:
        """Sends a frame."""
        self._writer.write(struct.pack(">BH", kind, len(payload)) + payload)

    def hang_up(self) -> None:
        """Hangs up."""
        self.is_over = True
        self.send(HANG_UP)

    def _next(self, count: int) -> bytes:
        """The next bytes that it gets: of its sound, and then of what the other leg says."""
        if self.sound:
            piece, self.sound = self.sound[:count], self.sound[count:]
        else:
            piece, self._said = self._said[:count], self._said[count:]
        return piece.ljust(count, b"\0")

    async def take(self, sound: bytes) -> None:
        """Takes the sound of a frame, and answers it."""
        if self.ear:
            self.ear.stdin.write(sound)
            await self.ear.stdin.drain()
        elif self.other and not self.other.sound:
            self.other._said = (self.other._said + sound)[-MOST_WAITING:]
        self.send(SOUND, self._next(len(sound)))
        await self._writer.drain()

    async def follow(self, reader) -> None:
        """Takes the frames of a leg until it is hung up."""
        while True:
            kind, payload = await next_frame(reader)
            if kind == HANG_UP or self.is_over:
                return
            if kind == SOUND:
                await self.take(payload)
            elif kind == ERROR:
                raise LegError(f"Asterisk tells error {payload.hex()}")
            elif kind != DTMF:  # its digits are for agi.py
                raise LegError(f"a frame of kind {kind:#04x} is not taken")

    def close(self) -> None:
        """Ends the connection, and hangs the other leg up."""
        self._writer.close()
        if self.other:
            self.other.other = None
            self.other.hang_up()


class Office:
    """The office: what it says to mftandem, and the legs whose other one is still to come, with what it will hear."""

    def __init__(self, words: list):
        self._words, self._waiting = words, {}

    async def _key_on(self, leg: Leg, call: dict) -> None:
        """Has a call wait for its other leg. The ear of its first one hears no more."""
        call["next"] = str(uuid.uuid4())
        self._waiting[call["next"]] = leg, await sound_of(" ".join(call["keys"]))
        ear, leg.ear = leg.ear, None
        if ear:
            ear.stdin.close()

    async def _tell_calls(self, leg: Leg, tandem) -> None:
        """Tells the calls of a leg, of which one that is keyed is the last."""
        async for text in tandem.stdout:
            told = json.loads(text)
            if told.get("outcome") == "KEYED" and not leg.is_over:
                await self._key_on(leg, told)
            elif told.get("outcome") == "REFUSED":
                leg.sound = await sound_of(REORDER, "--level=-24")
            if "outcome" in told:
                tell(leg.name, told)
            if "next" in told:
                return

    async def _hear(self, leg: Leg, reader) -> None:
        """Hears a leg until it ends."""
        tandem, ear = await run("mftandem", *self._words, "--json"), await run("mfrx", "--format", "s16", "--json")
        leg.ear = ear
        telling = asyncio.create_task(self._tell_calls(leg, tandem))

        async def pass_keys() -> None:
            async for text in ear.stdout:
                told = json.loads(text)
                if told.get("doubts"):
                    tell(leg.name, told)
                tandem.stdin.write(text)
            tandem.stdin.close()

        passing = asyncio.create_task(pass_keys())
        try:
            await leg.follow(reader)
        finally:
            leg.is_over = True
            ear.stdin.close()
            await asyncio.gather(passing, telling)

    async def serve(self, reader, writer) -> None:
        """Serves a leg."""
        leg = Leg(writer)
        try:
            kind, payload = await next_frame(reader)
            if kind != ID or len(payload) != 16:
                raise LegError("it begins without an id")
            leg.name = str(uuid.UUID(bytes=payload))
            if leg.name in self._waiting:
                leg.other, leg.sound = self._waiting.pop(leg.name)
                leg.other.other = leg
                await leg.follow(reader)
            else:
                await self._hear(leg, reader)
        except (LegError, EOFError, OSError) as fault:
            print(f"audiosocket.py: {leg.name}: {fault}", file=sys.stderr, flush=True)
        finally:
            self._waiting = {name: it for name, it in self._waiting.items() if it[0] is not leg}
            leg.close()


async def listen(port: int, words: list) -> None:
    """Serves legs for ever."""
    server = await asyncio.start_server(Office(words).serve, "127.0.0.1", port)
    await server.serve_forever()


def main(words: list) -> int:
    """Does what the words ask."""
    if len(words) < 2 or not words[0].isdecimal():
        print(__doc__, file=sys.stderr)
        return 2
    try:
        for program in PROGRAMS:
            if not shutil.which(program):
                raise FileNotFoundError(f"{program} is not on PATH")
        # without keys it tells what is wrong with its words, and with the table
        tried = subprocess.run(["mftandem", *words[1:], "--json"], stdin=subprocess.DEVNULL, stdout=subprocess.DEVNULL)
        if tried.returncode == 0:
            asyncio.run(listen(int(words[0]), words[1:]))
        return tried.returncode
    except (OSError, OverflowError) as fault:
        print(f"audiosocket.py: {fault}", file=sys.stderr)
        return 1
    except KeyboardInterrupt:
        return INTERRUPTED


if __name__ == "__main__":
    sys.exit(main(sys.argv[1:]))
