"""Runs a program of examples/gpio on pins that are none: a fake of the Python module of libgpiod 1 or 2, and of the clock.

usage: gpio.py 1|2 FAR PROGRAM WORDS...

It prints each change of the voltage of an output, as MS PIN VOLTAGE, in ms from the first one. FAR says what the far office
does with each seizure, with a / between: for each off hook `AFTER+LENGTH`, in ms from the seizure, with commas between, or
`none`; or it is `busy`, off hook from the beginning. With `low:` before it, off hook is a voltage of 0. Its lead is pin 27.

The fakes take the calls that the documents of these modules have, with their words, and refuse others. They are written
after the sources of python3-libgpiod 1.6.3 and 2.2.1 in Debian. The clock stands still but for what the program waits, and
a microsecond for each look at it. So what is printed is the same on each machine.
"""
import heapq
import runpy
import sys
import time
import types
from enum import Enum
from pathlib import Path

MS = 10**6
RELEASE_NS = 300 * MS
LEAD = 27


class World:
    """The clock, the pins, and the far office."""

    def __init__(self, far: str):
        self.is_low, self.is_read_low = far.startswith("low:"), False
        self.far = far.removeprefix("low:").split("/")
        self.now, self.volts, self.first = 0, {}, None
        self.is_off_hook, self.changes, self.edges = self.far == ["busy"], [], []
        self.is_seized, self.released = False, -RELEASE_NS

    def monotonic_ns(self) -> int:
        self.now += 1000
        self.turn()
        return self.now

    def sleep(self, seconds: float) -> None:
        assert seconds >= 0
        self.now += round(seconds * 10**9)
        self.turn()

    def lead(self) -> int:
        """The level of the lead, as it is asked for."""
        return int((self.is_off_hook != self.is_low) != self.is_read_low)

    def turn(self) -> None:
        """The far office does what is due, and the kernel dates it."""
        while self.changes and self.changes[0][0] <= self.now:
            at, self.is_off_hook = heapq.heappop(self.changes)
            self.edges.append((at, self.lead()))

    def wait(self, nanoseconds: int) -> bool:
        """Waits for an edge."""
        until = self.now + nanoseconds
        if not self.edges and self.changes and self.changes[0][0] <= until:
            self.now = max(self.now, self.changes[0][0])
        elif not self.edges:
            self.now = until
        self.turn()
        return bool(self.edges)

    def put(self, pin: int, level: int, is_low: bool) -> None:
        """An output gets a level."""
        volts = int(bool(level) != is_low)
        if self.volts.get(pin, int(is_low)) != volts:
            self.first = self.now if self.first is None else self.first
            print(round((self.now - self.first) / MS), pin, volts)
        self.volts[pin] = volts
        if level and not self.is_seized and self.now - self.released >= RELEASE_NS:
            self.answer()
        if self.is_seized and not level:
            self.released = self.now
        self.is_seized = bool(level)

    def answer(self) -> None:
        """The far office is seized."""
        word = self.far.pop(0) if self.far else "none"
        if "+" in word:
            for signal in word.split(","):
                after, length = map(int, signal.split("+"))
                heapq.heappush(self.changes, (self.now + after * MS, True))
                heapq.heappush(self.changes, (self.now + (after + length) * MS, False))


WORLD = None


def gpiod_1() -> types.ModuleType:
    """The module of libgpiod 1."""
    gpiod = types.ModuleType("gpiod")
    gpiod.LINE_REQ_DIR_OUT, gpiod.LINE_REQ_EV_BOTH_EDGES = 3, 6
    gpiod.LINE_REQ_FLAG_ACTIVE_LOW, gpiod.LINE_REQ_FLAG_BIAS_PULL_UP = 4, 32

    class LineEvent:
        RISING_EDGE, FALLING_EDGE = 1, 2

        def __init__(self, at, rises):
            self.sec, self.nsec, self.type = at // 10**9, at % 10**9, 1 if rises else 2

    class LineBulk:
        def __init__(self, pins):
            self.pins, self.is_low, self.kind = pins, False, None

        def request(self, consumer, type, flags=0, default_vals=None):
            assert self.kind is None and isinstance(consumer, str)
            self.kind, self.is_low = type, bool(flags & 4)
            if type == gpiod.LINE_REQ_DIR_OUT:
                assert len(default_vals) == len(self.pins)
                self.set_values(default_vals)
            else:
                assert flags & 32 and self.pins == [LEAD] and default_vals is None
                WORLD.is_read_low = self.is_low

        def set_values(self, values):
            assert self.kind == gpiod.LINE_REQ_DIR_OUT and len(values) == len(self.pins)
            for pin, value in zip(self.pins, values):
                assert value in (0, 1)
                WORLD.put(pin, value, self.is_low)

    class Line(LineBulk):
        def get_value(self):
            return WORLD.lead()

        def event_wait(self, sec, nsec):
            assert self.kind == gpiod.LINE_REQ_EV_BOTH_EDGES and 0 <= nsec < 10**9
            return WORLD.wait(sec * 10**9 + nsec)

        def event_read(self):
            return LineEvent(*WORLD.edges.pop(0))

    class Chip:
        def __init__(self, name):
            if name != "gpiochip0":
                raise FileNotFoundError(2, "No such file or directory")

        def get_lines(self, pins):
            return LineBulk(list(pins))

        def get_line(self, pin):
            return Line([pin])

        def close(self):
            pass

    gpiod.Chip, gpiod.LineEvent = Chip, LineEvent
    return gpiod


def gpiod_2() -> types.ModuleType:
    """The module of libgpiod 2."""
    gpiod, line = types.ModuleType("gpiod"), types.ModuleType("gpiod.line")
    gpiod.line = line
    line.Value = Enum("Value", {"INACTIVE": 0, "ACTIVE": 1})
    line.Direction = Enum("Direction", {"AS_IS": 1, "INPUT": 2, "OUTPUT": 3})
    line.Edge = Enum("Edge", {"NONE": 1, "RISING": 2, "FALLING": 3, "BOTH": 4})
    line.Bias = Enum("Bias", {"AS_IS": 1, "UNKNOWN": 2, "DISABLED": 3, "PULL_UP": 4, "PULL_DOWN": 5})

    class LineSettings:
        def __init__(self, direction=line.Direction.AS_IS, edge_detection=line.Edge.NONE, bias=line.Bias.AS_IS,
                     active_low=False, output_value=line.Value.INACTIVE):
            self.direction, self.edges, self.bias = direction, edge_detection, bias
            self.is_low, self.value = active_low, output_value

    class EdgeEvent:
        Type = Enum("Type", {"RISING_EDGE": 1, "FALLING_EDGE": 2})

        def __init__(self, at, rises):
            self.timestamp_ns, self.line_offset, self.event_type = at, LEAD, EdgeEvent.Type(1 if rises else 2)

    class LineRequest:
        def __init__(self, config):
            self.low, self.is_released = {}, False
            for pins, settings in config.items():
                for pin in pins if isinstance(pins, tuple) else (pins,):
                    if settings.direction == line.Direction.OUTPUT:
                        self.low[pin] = settings.is_low
                        WORLD.put(pin, settings.value.value, settings.is_low)
                    else:
                        assert pin == LEAD and settings.direction == line.Direction.INPUT
                        assert settings.edges == line.Edge.BOTH and settings.bias == line.Bias.PULL_UP
                        WORLD.is_read_low = settings.is_low

        def set_values(self, values):
            assert not self.is_released
            for pin, value in values.items():
                WORLD.put(pin, line.Value(value).value, self.low[pin])

        def get_value(self, pin):
            assert pin == LEAD
            return line.Value(WORLD.lead())

        def wait_edge_events(self, timeout=None):
            return WORLD.wait(round(timeout * 10**9))

        def read_edge_events(self, max_events=None):
            events, WORLD.edges = [EdgeEvent(*edge) for edge in WORLD.edges], []
            return events

        def release(self):
            assert not self.is_released
            self.is_released = True

    def request_lines(path, config, consumer=None, event_buffer_size=None, output_values=None):
        if path != "/dev/gpiochip0":
            raise FileNotFoundError(2, "No such file or directory")
        return LineRequest(config)

    gpiod.LineSettings, gpiod.EdgeEvent, gpiod.request_lines = LineSettings, EdgeEvent, request_lines
    return gpiod


def main(version: str, far: str, program: str, *words: str) -> None:
    """Runs the program."""
    global WORLD
    WORLD = World(far)
    sys.modules["gpiod"] = {"1": gpiod_1, "2": gpiod_2}[version]()
    time.monotonic_ns, time.sleep = WORLD.monotonic_ns, WORLD.sleep
    sys.argv = [program, *words]
    sys.path.insert(0, str(Path(program).parent))
    runpy.run_path(program, run_name="__main__")


main(*sys.argv[1:])
