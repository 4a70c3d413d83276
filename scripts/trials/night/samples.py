"""Contacts as samples: which they are, and the bytes, the rows and the VCD of them."""
import itertools

SECOND = 1_000_000_000


def sample_at(ns, rate):
    """Returns the first sample that is not before a time."""
    return -(-ns * rate // SECOND)


def steps_of(wires, rate):
    """Returns how many samples there are of some contacts, and the samples at which a level changes, 0 being the first
    of them, each with all levels from there on."""
    flips = sorted((sample_at(ns, rate), wire) for wire, it in enumerate(wires) for ns in it.changes)
    levels, steps = [0] * len(wires), [(0, (0,) * len(wires))]
    for at, group in itertools.groupby(flips, key=lambda it: it[0]):
        for _, wire in group:
            levels[wire] ^= 1
        if tuple(levels) != steps[-1][1]:
            steps.append((at, tuple(levels)))
    return max(sample_at(it.end, rate) for it in wires), steps


def pieces_of(wires, rate):
    """Returns the pieces of the samples in which no level changes: how long each is, and the levels."""
    count, steps = steps_of(wires, rate)
    ends = [at for at, _ in steps[1:]] + [count]
    return [(end - at, levels) for (at, levels), end in zip(steps, ends)]


def bits(wires, rate, width=1):
    """Returns the samples of up to eight contacts for each byte, the lower byte first."""
    out = bytearray()
    for count, levels in pieces_of(wires, rate):
        out += sum(level << wire for wire, level in enumerate(levels)).to_bytes(width, "little") * count
    return bytes(out)


def rows(wires, rate):
    """Returns a row of levels for each sample."""
    return "".join((",".join(map(str, levels)) + "\n") * count for count, levels in pieces_of(wires, rate))


def vcd(wires, names):
    """Returns a VCD of some contacts, with ticks of a microsecond."""
    count, steps = steps_of(wires, 1_000_000)
    codes = [chr(33 + it) for it in range(len(wires))]
    declared = "".join(f"$var wire 1 {code} {name} $end\n" for code, name in zip(codes, names))
    lines, before = [f"$timescale 1 us $end\n{declared}$enddefinitions $end\n"], (None,) * len(wires)
    for at, levels in steps:
        changed = [f"{level}{code}\n" for level, was, code in zip(levels, before, codes) if level != was]
        lines.append(f"#{at}\n{''.join(changed)}")
        before = levels
    return ("".join(lines) + f"#{count}\n").encode()
