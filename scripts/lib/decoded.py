"""What the decoder of examples/sigrok tells of a recording, without sigrok, and what it has to tell by mfbench.

usage: decoded.py told FORM FILE WIRE [OPTION=VALUE]...   FORM is vcd, or bits:RATE
       decoded.py wanted LINE < OBJECTS                    OBJECTS are those of mfbench --json

Each prints a text for each digit, its figures and its verdict, as sigrok-cli prints them. In `told` a module stands for that
of libsigrokdecode: it has what its documents say that a decoder may call, and a recording that is a list of edges.
"""
import json
import sys
import types
from pathlib import Path

TOLD = {"digit", "spoiled", "unfinished", "figures", "verdict"}


def of_vcd(text: str, wire: str) -> tuple:
    """The samples a second, the changes of a wire, and the length of a dump."""
    head, _, body = text.partition("$enddefinitions $end")
    words = head.split()
    code = next(words[at + 3] for at, word in enumerate(words) if word == "$var" and words[at + 4] == wire)
    number, unit = head.partition("$timescale")[2].split()[:2]
    rate = {"ms": 10**3, "us": 10**6, "ns": 10**9}[unit] // int(number)
    at, changes = 0, []
    for word in body.split():
        if word[0] == "#":
            at = int(word[1:])
        elif word[0] in "01" and word[1:] == code and (not changes or changes[-1][1] != int(word[0])):
            changes.append((at, int(word[0])))
    return rate, changes, at


def of_bits(samples: bytes, rate: int, wire: int) -> tuple:
    """The same of bytes, of which each bit is a wire."""
    levels = [byte >> wire & 1 for byte in samples]
    changes = [(at, level) for at, level in enumerate(levels) if at == 0 or level != levels[at - 1]]
    return rate, changes, len(levels)


class Recording:
    """The base of a decoder: it waits in a recording, and prints what is told."""

    def begin(self, changes: list, length: int) -> None:
        """Goes to the beginning."""
        self._changes, self._length, self._seen = changes, length, -1

    def wait(self, conditions) -> tuple:
        """The levels at the first sample that one of the conditions names."""
        if isinstance(conditions, dict):
            conditions = [conditions]
        ends = []
        for condition in conditions:
            if "skip" in condition:
                ends.append(max(0, self._seen) + condition["skip"])
            else:
                assert condition == {0: "e"}
                ends += [at for at, _ in self._changes if at > self._seen][:1]
        if not ends or min(ends) >= self._length:
            raise EOFError
        self._seen = self.samplenum = min(ends)
        while len(self._changes) > 1 and self._changes[1][0] <= self._seen:
            self._changes.pop(0)
        return (self._changes[0][1],)

    def register(self, kind: int) -> int:
        """A place for what is told."""
        return kind

    def put(self, begin: int, end: int, place: int, data: list) -> None:
        """Tells something of samples."""
        assert 0 <= begin <= end <= self._length and place == 0
        if self.annotations[data[0]][0] in TOLD:
            print(data[1][0])


def told(form: str, file: str, wire: str, *options: str) -> None:
    """Prints what the decoder tells."""
    srd = types.ModuleType("sigrokdecode")
    srd.Decoder, srd.OUTPUT_ANN, srd.SRD_CONF_SAMPLERATE = Recording, 0, 10000
    sys.modules["sigrokdecode"] = srd
    sys.path.insert(0, str(Path(__file__).parents[2] / "examples" / "sigrok"))
    from dial_pulses import Decoder
    kind, _, rate = form.partition(":")
    if kind == "vcd":
        rate, changes, length = of_vcd(Path(file).read_text(), wire)
    else:
        rate, changes, length = of_bits(Path(file).read_bytes(), int(rate), int(wire))
    decoder = Decoder()
    decoder.options = {option["id"]: option["default"] for option in Decoder.options}
    for name, _, value in (option.partition("=") for option in options):
        decoder.options[name] = type(decoder.options[name])(value)
    decoder.begin(changes, length)
    decoder.metadata(srd.SRD_CONF_SAMPLERATE, rate)
    decoder.start()
    try:
        decoder.decode()
    except EOFError:
        pass


def tenths(figure) -> str:
    """A figure in tenths."""
    return "-" if figure is None else f"{figure // 10}.{figure % 10}"


def spread(both) -> str:
    """The least and the most."""
    if both is None:
        return "-"
    least, most = tenths(both["least"]), tenths(both["most"])
    return least if least == most else f"{least}-{most}"


def signed(drift) -> str:
    """A drift with its sign."""
    return tenths(drift) if not drift else ("-" if drift < 0 else "+") + tenths(abs(drift))


def name_of(told: dict) -> str:
    """What a digit is."""
    fault = told["fault"]
    if told["event"] == "UNFINISHED":
        return f"{told['pulses']} pulses without a pause"
    if fault is None:
        return f"Digit {told['digit']}"
    if fault["kind"] == "TOO_MANY_PULSES":
        return f"Spoiled: {fault['kind']} {fault['limit'] + 1}"
    return f"Spoiled: {fault['kind']} {fault['ms']} ms {'<' if fault['kind'].startswith('SHORT') else '>'} {fault['limit']}"


def wanted(line: str) -> None:
    """Prints what the decoder has to tell of a line. Of pulses that the end of the recording cuts off sigrok tells nothing."""
    objects = [it for it in map(json.loads, sys.stdin) if it.get("line") == int(line)]
    for it, after in zip(objects, objects[1:]):
        if it["event"] == "DIGIT" or it["event"] == "UNFINISHED" and after["event"] == "RELEASED":
            print(name_of(it))
            print(f"{it['pulses']} pulses, {tenths(it['speed_tenths'])} p/s, {tenths(it['open_permille'])} % break, breaks "
                  f"{spread(it['breaks_ms_tenths'])} ms, makes {spread(it['makes_ms_tenths'])} ms, drift "
                  f"{signed(it['drift_permille'])} %, bounce {tenths(it['bounce_ms_tenths'])} ms")
            if it["verdict"]:
                print(it["verdict"])


{"told": told, "wanted": wanted}[sys.argv[1]](*sys.argv[2:])
