"""Pins of a GPIO chip, by the Python module `gpiod` of libgpiod 1 or 2, or a log in their place.

`open_pins` says by its words which it is. All three take the same calls:

    pins.set([1, 0])     the outputs, in the order in which they were asked for
    pins.level()         the level of the lead
    pins.edge(until)     the next edge of the lead, or None where there is none until then
    pins.close()

The lead is an input with a pull-up. Times are nanoseconds of the monotonic clock, and an edge is a pair of a time and a
level. The time of an edge is the kernel's; of libgpiod 1 on kernels before 5.7 it is of another clock, so take only the
difference of two. A level of 1 is that of a pin that is active: high, or low where the words say so.
"""
import time

WHO = "mfbank"


class PinsError(OSError):
    """Pins are not to be had, and the text says why."""


def until_ns(until: int) -> int:
    """How many nanoseconds are left."""
    return max(0, until - time.monotonic_ns())


class Pins1:
    """Pins by libgpiod 1."""

    def __init__(self, gpiod, chip: str, outputs: list, lead, is_low: bool, is_lead_low: bool):
        self._gpiod, self._chip = gpiod, gpiod.Chip(chip)
        self._out = self._chip.get_lines(outputs)
        self._out.request(consumer=WHO, type=gpiod.LINE_REQ_DIR_OUT, default_vals=[0] * len(outputs),
                          flags=gpiod.LINE_REQ_FLAG_ACTIVE_LOW if is_low else 0)
        self._lead, self._is_lead_low = None, is_lead_low
        if lead is not None:
            self._lead = self._chip.get_line(lead)
            low = gpiod.LINE_REQ_FLAG_ACTIVE_LOW if is_lead_low else 0
            self._lead.request(consumer=WHO, type=gpiod.LINE_REQ_EV_BOTH_EDGES,
                               flags=gpiod.LINE_REQ_FLAG_BIAS_PULL_UP | low)

    def set(self, levels: list) -> None:
        """Sets the outputs."""
        self._out.set_values(levels)

    def level(self) -> int:
        """The level of the lead."""
        return self._lead.get_value()

    def edge(self, until: int):
        """The next edge of the lead."""
        left = until_ns(until)
        if not self._lead.event_wait(sec=left // 10**9, nsec=left % 10**9):
            return None
        edge = self._lead.event_read()
        return edge.sec * 10**9 + edge.nsec, int(edge.type == self._gpiod.LineEvent.RISING_EDGE)

    def close(self) -> None:
        """Gives the pins back."""
        self._chip.close()


class Pins2:
    """Pins by libgpiod 2."""

    def __init__(self, gpiod, chip: str, outputs: list, lead, is_low: bool, is_lead_low: bool):
        line = gpiod.line
        self._values = (line.Value.INACTIVE, line.Value.ACTIVE)
        self._rises = gpiod.EdgeEvent.Type.RISING_EDGE
        self._outputs, self._lead = outputs, lead
        config = {tuple(outputs): gpiod.LineSettings(direction=line.Direction.OUTPUT, active_low=is_low,
                                                     output_value=line.Value.INACTIVE)}
        if lead is not None:
            config[lead] = gpiod.LineSettings(direction=line.Direction.INPUT, active_low=is_lead_low,
                                              edge_detection=line.Edge.BOTH, bias=line.Bias.PULL_UP)
        path = chip if chip.startswith("/") else f"/dev/{chip}"
        self._request = gpiod.request_lines(path, consumer=WHO, config=config)
        self._edges = []

    def set(self, levels: list) -> None:
        """Sets the outputs."""
        self._request.set_values({pin: self._values[level] for pin, level in zip(self._outputs, levels)})

    def level(self) -> int:
        """The level of the lead."""
        return self._values.index(self._request.get_value(self._lead))

    def edge(self, until: int):
        """The next edge of the lead."""
        if not self._edges:
            if not self._request.wait_edge_events(until_ns(until) / 10**9):
                return None
            self._edges = self._request.read_edge_events()
        edge = self._edges.pop(0)
        return edge.timestamp_ns, int(edge.event_type == self._rises)

    def close(self) -> None:
        """Gives the pins back."""
        self._request.release()


class Log:
    """No pins: standard output gets a row for each change, its time in seconds, the level of each output, and that of the
    lead, as `mfloop` and `mfbench` take it. What the lead does is a file of rows, a time in seconds and a level from then
    on; without one it is 0."""

    def __init__(self, lead_rows: str, outputs: list, lead):
        self._start, self._levels, self._lead, self._is_lead = time.monotonic_ns(), [0] * len(outputs), 0, lead is not None
        self._changes = []
        if lead_rows:
            with open(lead_rows, encoding="ascii") as rows:
                self._changes = [(self._start + round(float(at) * 10**9), int(level))
                                 for at, level in (row.split(",") for row in rows)]
        self._write(self._start)

    def _write(self, at: int) -> None:
        levels = self._levels + [self._lead] * self._is_lead
        print(f"{(at - self._start) / 10**9:.6f},{','.join(map(str, levels))}", flush=True)

    def set(self, levels: list) -> None:
        """Tells the outputs."""
        at = time.monotonic_ns()
        while self.edge(at):
            pass
        self._levels = list(levels)
        self._write(at)

    def level(self) -> int:
        """The level of the lead."""
        while self.edge(time.monotonic_ns()):
            pass
        return self._lead

    def edge(self, until: int):
        """The next edge of the lead."""
        if not self._changes or self._changes[0][0] > until:
            time.sleep(until_ns(until) / 10**9)
            return None
        at, level = self._changes.pop(0)
        time.sleep(until_ns(at) / 10**9)
        self._lead = level
        self._write(at)
        return at, level

    def close(self) -> None:
        """Tells when it ended."""
        self._write(time.monotonic_ns())


def open_pins(chip: str, outputs: list, lead=None, is_low: bool = False, is_lead_low: bool = False):
    """Opens pins of a chip, as `gpiochip0`, all of them inactive: those of `outputs`, and where there is a `lead` that
    input. `log` opens a log, and `log:FILE` one whose lead does what a file says. Raises `PinsError`."""
    word, _, rows = chip.partition(":")
    try:
        if word == "log":
            return Log(rows, outputs, lead)
        import gpiod  # only where there are pins: a log needs none
        kind = Pins2 if hasattr(gpiod, "request_lines") else Pins1
        return kind(gpiod, chip, outputs, lead, is_low, is_lead_low)
    except ImportError:
        raise PinsError("Python has no module gpiod: apt-get install python3-libgpiod, or the chip `log`") from None
    except (OSError, ValueError) as fault:
        raise PinsError(f"{chip}: {fault}") from None
