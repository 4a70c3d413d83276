"""Stands between two telephones by SIP, as a network that loses packets of sound and delays others. `voip` calls it.

usage: voip.py PORT CALLEE LOST JITTER SEED

It takes SIP at PORT of 127.0.0.1 for the telephone at CALLEE, and puts ports of its own into the descriptions of sessions.
Of the packets of sound that come from the caller, LOST of 1,000 are lost, and each other one is delayed by up to JITTER ms,
by a seed, so that some overtake others. At its end, by SIGTERM, it says how many packets it passed on, lost, and let be
overtaken, and by how many ms the latest of them was later than that.
"""
import asyncio
import random
import re
import signal
import sys

MEDIA = re.compile(rb"\r\nm=audio ([0-9]{5}) ")
ADDRESS = re.compile(rb"\r\nc=IN IP4 ([0-9.]+)")


class Counts:
    """What became of the packets of sound."""

    def __init__(self):
        self.passed = self.lost = self.overtaken = self.last = self.latest = 0


class Media(asyncio.DatagramProtocol):
    """A port for sound: what comes there goes on to another place."""

    def __init__(self, to, network=None):
        self.to, self.network = to, network

    def connection_made(self, transport):
        self.transport = transport

    def send(self, data: bytes) -> None:
        """Passes a packet on."""
        if not self.transport.is_closing():
            self.transport.sendto(data, self.to)

    def datagram_received(self, data, source):
        if self.network is None:
            self.send(data)
        else:
            self.network.take(data, self.send)


class Network:
    """Loses and delays packets by a seed."""

    def __init__(self, lost: int, jitter: int, seed: int):
        self.lost, self.jitter, self.random, self.counts = lost, jitter, random.Random(seed), Counts()

    def take(self, data: bytes, send) -> None:
        """A packet comes."""
        if self.random.randrange(1000) < self.lost:
            self.counts.lost += 1
            return
        loop = asyncio.get_running_loop()
        due = loop.time() + self.random.uniform(0, self.jitter) / 1000
        loop.call_at(due, self.leave, data, send, due)

    def leave(self, data: bytes, send, due: float) -> None:
        """A packet goes on."""
        self.counts.latest = max(self.counts.latest, asyncio.get_running_loop().time() - due)
        number = int.from_bytes(data[2:4], "big")
        self.counts.passed += 1
        self.counts.overtaken += 0 < (self.counts.last - number) % 65536 < 1000
        self.counts.last = number
        send(data)


class Sip(asyncio.DatagramProtocol):
    """Passes SIP on, each answer to whom asked."""

    def __init__(self, callee, network: Network):
        self.callee, self.network, self.caller, self.ports = callee, network, None, {}

    def connection_made(self, transport):
        self.transport = transport

    def datagram_received(self, data, source):
        is_answer = source == self.callee
        if not is_answer:
            self.caller = source
        asyncio.get_running_loop().create_task(self.pass_on(data, is_answer))

    async def pass_on(self, data: bytes, is_answer: bool) -> None:
        """Passes a message on, with a port of sound of our own in place of that of who sent it."""
        media = MEDIA.search(data)
        if media:
            to = ADDRESS.search(data)[1].decode(), int(media[1])
            if to not in self.ports:
                media_port = Media(to, self.network if is_answer else None)
                transport, _ = await asyncio.get_running_loop().create_datagram_endpoint(
                    lambda: media_port, local_addr=("0.0.0.0", 0))
                self.ports[to] = transport.get_extra_info("sockname")[1]
            data = data.replace(media[0], b"\r\nm=audio %05d " % self.ports[to])
        self.transport.sendto(data, self.caller if is_answer else self.callee)


async def main(port: int, callee: int, lost: int, jitter: int, seed: int) -> None:
    """Stands there until SIGTERM."""
    network, end = Network(lost, jitter, seed), asyncio.Event()
    loop = asyncio.get_running_loop()
    loop.add_signal_handler(signal.SIGTERM, end.set)
    await loop.create_datagram_endpoint(lambda: Sip(("127.0.0.1", callee), network), local_addr=("127.0.0.1", port))
    await end.wait()
    counts = network.counts
    print(counts.passed, counts.lost, counts.overtaken, round(counts.latest * 1000))


asyncio.run(main(*map(int, sys.argv[1:])))
