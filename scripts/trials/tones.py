"""Writes the WAV file of keyed entries, or of keys by name, as the definitions say it: a second program, which shares no
code with mftone.

    tones.py LEAD KP KEY GAP < ENTRIES > WAV
    tones.py LEAD KP KEY GAP WORDS [--level DBM0] [--twist DB] [--detune PERCENT] [--skew MS] [--hole MS@MS]
        [--phase] [--tone HZ:DBM0] [--hum DBM0] [--noise-peak N] [--seed N] [--clip]
        [--format=wav-ulaw --heard WAV] > WAV

Entries are lines of a page of mfbank; what is no keyed entry is passed over. WORDS are those of mftone --keys, and have
to be right, but one may be too loud: then nothing is written, its place is told, and the status is 1. The four times
are in ms. By wav-ulaw each sample has a byte of mu-law, by a search of all 256; where two stand for samples that are as
near, it is the one that the file of --heard has there.
"""
import argparse
import fractions
import functools
import math
import struct
import sys

RATE = 8000
AMPLITUDE = 10_000

# The pairs of keys by name.
PAIRS = {
    "KP": "1100+1700", "ST": "1500+1700", "KP2": "1300+1700", "ST'": "900+1700", "ST''": "1300+1700",
    "ST" + 3 * "'": "700+1700", "1": "700+900", "2": "700+1100", "3": "900+1100", "4": "700+1300", "5": "900+1300",
    "6": "1100+1300", "7": "700+1500", "8": "900+1500", "9": "1100+1500", "0": "1300+1500",
}


def sine(hz, n):
    """Returns sample n of a sine of so many Hz."""
    return round(AMPLITUDE * math.sin(2 * math.pi * (hz * n % RATE) / RATE))


def amplitude(level):
    """Returns the amplitude of a level in dBm0."""
    return round(AMPLITUDE * 10 ** ((level + 7.2) / 20))


def scaled(size, sample):
    """Returns a sample of the table at an amplitude, a half rounded away from 0."""
    return int(math.copysign((size * abs(sample) * 2 + AMPLITUDE) // (2 * AMPLITUDE), sample))


def state_after(state, steps):
    """Returns the state of the generator after so many steps."""
    return (state + steps * 0x9E3779B97F4A7C15) % 2**64


def word_of(state):
    """Returns the word that the generator makes of a state."""
    word = (state ^ (state >> 30)) * 0xBF58476D1CE4E5B9 % 2**64
    word = (word ^ (word >> 27)) * 0x94D049BB133111EB % 2**64
    return word ^ (word >> 31)


def splitmix64(seed):
    """Gives the words of the generator, one after the other."""
    while True:
        seed = state_after(seed, 1)
        yield word_of(seed)


def silence(ms):
    return [0] * (ms * RATE // 1000)


def tone(hertz, ms, low=AMPLITUDE, high=AMPLITUDE):
    """Returns the samples of frequencies, written as LOW+HIGH, that sound together."""
    sizes = [(int(hz), high if place else low) for place, hz in enumerate(hertz.split("+"))]
    return [sum(scaled(size, sine(hz, n)) for hz, size in sizes) for n in range(ms * RATE // 1000)]


def tuned(hz, percent):
    """Returns a frequency that is so much higher, in percent, to the nearest whole Hz, and a half up."""
    return math.floor(hz * (100 + fractions.Fraction(percent)) / 100 + fractions.Fraction(1, 2))


def key(pair, ms, levels, given, before):
    """Returns the samples of the two tones of a key, disturbed as is asked for, after so many samples of the signal."""
    hole, start = (8 * int(it) for it in given.hole.split("@"))
    late = max(0, -8 * given.skew), max(0, 8 * given.skew)
    hertz = [tuned(int(hz), given.detune) for hz in pair.split("+")]
    drawn = splitmix64(word_of(state_after(given.seed, before)))
    starts = [next(drawn) % RATE if given.phase else 0 for _ in hertz]
    return [
        0 if start <= n < start + hole
        else sum(
            scaled(level, sine(1, start + hz * (n - by)))
            for level, hz, by, start in zip(levels, hertz, late, starts) if n >= by
        )
        for n in range(8 * ms)
    ]


def sound(entry, lead, kp, key, gap):
    """Returns the samples of a line of a page: none where nothing was keyed."""
    words = entry.split()
    if len(words) < 4 or words[2] != "KEYED":
        return []
    samples = silence(lead)
    for word in words[4:]:
        name, pair = word.split(":")
        samples += tone(pair, kp if name == "KP" else key) + silence(gap)
    return samples


def all_through(given, count):
    """Returns so many samples of a steady tone and of a hum, without what is not asked for."""
    parts = []
    if given.tone:
        hz, level = given.tone.split(":")
        parts.append((int(hz), amplitude(float(level))))
    return [
        sum(scaled(size, sine(hz, n)) for hz, size in parts + mains(given.hum)) for n in range(count)
    ]


def mains(level):
    """Returns the frequencies of a hum, each with its amplitude; a half is rounded up."""
    if level is None:
        return []
    return [(60 * k, (2 * amplitude(level) + k) // (2 * k)) for k in range(1, 9)]


def peak_of(given):
    """Returns how much may be added to a sample."""
    hum = max(abs(sum(scaled(size, sine(hz, n)) for hz, size in mains(given.hum))) for n in range(400))
    return given.noise_peak + hum + (amplitude(float(given.tone.split(":")[1])) if given.tone else 0)


def named(given, levels):
    """Returns the samples of keys by name, of frequencies for a time, and of silence, or the place of what is loud."""
    lead, kp_ms, key_ms, gap = given.times
    samples = silence(lead)
    peak = peak_of(given)
    place = 0
    for byte, word in starts(given.words):
        place += 1
        what, _, ms = word.partition(":")
        made = []
        if what == "silence":
            made = silence(int(ms))
        elif ms:
            made = tone(what, int(ms), *levels)
        else:
            for name in [word] if word in PAIRS else word:
                lasts = kp_ms if name.startswith("KP") else key_ms
                made += key(PAIRS[name], lasts, levels, given, len(samples) + len(made)) + silence(gap)
        greatest = [sum(levels)] if given.phase and not ms else made
        if not given.clip and any(it + peak > 32767 or it - peak < -32768 for it in greatest):
            sys.exit(f"word {place}, at byte {byte}, is too loud for 16 bits")
        samples += made
    return samples


def starts(text):
    """Gives the words of a text, each with the byte at which it begins, from 1."""
    at = 0
    for word in text.split(" "):
        if word:
            yield at + 1, word
        at += len(word) + 1


def noisy(samples, peak, seed):
    """Returns samples with noise, cut to 16 bits."""
    words = splitmix64(seed)
    return [max(-32768, min(32767, it + next(words) % (2 * peak + 1) - peak)) for it in samples]


def chunk(name, *parts):
    """Returns a chunk of a WAV file, with a byte more where its length is odd."""
    data = b"".join(parts)
    return name + struct.pack("<I", len(data)) + data + b"\0" * (len(data) % 2)


def riff(*chunks):
    """Returns a WAV file of chunks."""
    return chunk(b"RIFF", b"WAVE", *chunks)


def wav(samples):
    """Returns a WAV file: PCM of 16 bits, one channel, 8,000 samples a second."""
    form = struct.pack("<HHIIHH", 1, 1, RATE, 2 * RATE, 2, 16)
    return riff(chunk(b"fmt ", form), chunk(b"data", struct.pack(f"<{len(samples)}h", *samples)))


def decoded(byte):
    """Returns the sample that a byte of mu-law stands for (G.711), in steps of 16 bits, which are four to one of 14."""
    turned = 255 - byte
    size = 4 * (((2 * (turned % 16) + 33) << (turned // 16 % 8)) - 33)
    return size if byte > 127 else -size


DECODED = [decoded(byte) for byte in range(256)]


@functools.lru_cache(maxsize=None)
def nearest(sample):
    """Returns the bytes that stand for the samples nearest to one."""
    least = min(abs(it - sample) for it in DECODED)
    return [byte for byte in range(256) if abs(DECODED[byte] - sample) == least]


def coded(samples, heard):
    """Returns a nearest byte for each sample: where there are two, the one that was heard there."""
    made = bytearray()
    for place, sample in enumerate(samples):
        near = nearest(sample)
        made.append(heard[place] if heard[place:place + 1] and heard[place] in near else near[0])
    return bytes(made)


def mu_law_wav(samples, heard):
    """Returns a WAV file of mu-law, one channel, 8,000 samples a second: its head has 58 bytes."""
    form = struct.pack("<HHIIHHH", 7, 1, RATE, RATE, 1, 8, 0)
    fact = struct.pack("<I", len(samples))
    return riff(chunk(b"fmt ", form), chunk(b"fact", fact), chunk(b"data", coded(samples, heard[58:])))


def attend():
    reader = argparse.ArgumentParser()
    reader.add_argument("times", nargs=4, type=int)
    reader.add_argument("words", nargs="?")
    reader.add_argument("--level", type=float, default=-7.2)
    reader.add_argument("--twist", type=float, default=0.0)
    reader.add_argument("--detune", default="0")
    reader.add_argument("--skew", type=int, default=0)
    reader.add_argument("--hole", default="0@0")
    reader.add_argument("--phase", action="store_true")
    reader.add_argument("--tone")
    reader.add_argument("--hum", type=float)
    reader.add_argument("--noise-peak", type=int, default=0)
    reader.add_argument("--seed", type=int, default=0)
    reader.add_argument("--clip", action="store_true")
    reader.add_argument("--format", choices=["wav", "wav-ulaw"], default="wav")
    reader.add_argument("--heard")
    given = reader.parse_args()
    if given.words is None:
        samples = [it for line in sys.stdin for it in sound(line, *given.times)]
    else:
        levels = amplitude(given.level), amplitude(round(given.level + given.twist, 1))
        clean = named(given, levels)
        summed = [it + more for it, more in zip(clean, all_through(given, len(clean)))]
        samples = noisy(summed, given.noise_peak, given.seed)
    if given.format == "wav-ulaw":
        with open(given.heard, "rb") as heard:
            made = mu_law_wav(samples, heard.read())
    else:
        made = wav(samples)
    sys.stdout.buffer.write(made)


if __name__ == "__main__":
    attend()
