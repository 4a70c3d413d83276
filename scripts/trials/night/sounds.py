"""What a sound card records of a contact: each change is a step, and a high-pass of one pole lets its spike through."""
import itertools
import math
import operator
import struct
from array import array

from samples import pieces_of

GREATEST = 32_767
HISS = 1 << 15


def hiss_of(chance, decibels):
    """Returns noise of so many dB below the greatest sample: as whole numbers, one after another, for good."""
    strength = GREATEST * 10 ** (decibels / 20)
    return itertools.cycle([round(chance.gauss(0, strength)) for _ in range(HISS)])


def taken(hiss, count):
    """Returns the next samples of a noise."""
    return array("h", itertools.islice(hiss, count))


def coupled(chance, contact, rate, step, corner, decibels):
    """Returns the samples of a contact whose step is that part of the greatest sample, behind a high-pass with a corner
    of so many Hz, and with noise."""
    keeps = math.exp(-2 * math.pi * corner / rate)
    falls = [keeps ** it for it in range(round(math.log(2 * GREATEST) * rate / (2 * math.pi * corner)))]
    hiss, out, level, closed = hiss_of(chance, decibels), array("h"), 0.0, 0
    for count, (after,) in pieces_of([contact], rate):
        level, closed = level + (after - closed) * step * GREATEST, after
        out.extend(map(operator.add, [int(level * it) for it in falls[:count]], hiss))
        out.extend(itertools.islice(hiss, max(0, count - len(falls))))
        level *= keeps ** count
    return out


def beside(samples, other, place):
    """Returns the samples of two channels, of which the first ones are channel 1 or 2."""
    both = array("h", bytes(4 * len(samples)))
    both[place - 1::2] = samples
    both[2 - place::2] = other
    return both


def head_of(rate, channels, length):
    """Returns the head of a WAV of 16 bits that says so many bytes of samples."""
    form = struct.pack("<HHIIHH", 1, channels, rate, 2 * channels * rate, 2 * channels, 16)
    beginning = struct.pack("<4sI4s4sI", b"RIFF", 36 + length, b"WAVE", b"fmt ", len(form))
    return beginning + form + struct.pack("<4sI", b"data", length)
