"""The forms of a recording that are tried, what mfloop has to make of each, and how each is made."""
import io
import math
import zipfile
from dataclasses import dataclass
from functools import partial
from typing import Callable

import gpio
import sigrok
import sounds
import tables
from contacts import LINE, Contact, busy, story_of_calls
from ringing import story_of_a_night
from samples import bits, vcd

# What has to come of a form: the page of the clean contact; that page, or a refusal; a refusal.
PAGE, EITHER, REFUSED = "the page", "page or refused", "refused"
SHORT_RATES = (8_000, 12_000, 24_000, 48_000)
LONG_RATES = (1_000_000, 12_000_000, 16_000_000, 24_000_000, 48_000_000)


@dataclass
class Trial:
    """A recording in pieces, the words for mfloop, what a refusal has to say, and whether it is enough to be told."""

    recording: list
    words: list
    reason: str = ""
    may_be_told: bool = False


@dataclass
class Form:
    """A form of a recording: what is made of it, how, of what story, and one for how many of the others."""

    name: str
    has_to_be: str
    make: Callable
    story: Callable = story_of_calls
    among: int = 1


def asked(name, *more):
    return ["--wire", f"{LINE}={name}", *more]


def gpiomon(chance, story, _, wire, name="GPIO17", is_lost=False):
    lines = [(story.recorded, f'gpiochip0 17 "{name}"'), (busy(chance, story.clean.end), 'gpiochip0 1 "GPIO1"')]
    known, reason = gpio.edges(lines, chance.randint(9, 90_000 * gpio.SECOND)), ""
    if is_lost:
        known, after = gpio.without_one(chance, known)
        reason = rf"text line {after}\b"
    return Trial([gpio.text_of(known)], asked(wire), reason)


def among_others(chance, story, names):
    """Returns a wire of each name, and the name of the one that is the line."""
    wires = [busy(chance, story.clean.end) for _ in names]
    place = chance.randrange(len(names))
    wires[place] = story.recorded
    return wires, names[place]


def of_sigrok(chance, story, _, write, rate, has_names=False):
    names = ["D0", "D1", "D2"]
    wires, wire = among_others(chance, story, names)
    return Trial([write(wires, names, rate, has_names)], asked(wire), r"unit|time|header|column|label")


def of_table(chance, story, _, write, name, rates):
    names = [name.format(it) for it in range(4)]
    wires, wire = among_others(chance, story, names)
    return Trial([write(wires, names, chance.choice(rates))], asked(wire))


def of_waveforms(chance, story, _, rate):
    names = [f"DIO {it}" for it in range(4)]
    wires, wire = among_others(chance, story, names)
    before = chance.randint(0, 4 * rate)
    return Trial([tables.waveforms(wires, names, rate, before)], asked(wire), r"time")


def twins(chance, story, _, write, names, wire):
    """Two columns of one name; the line is the first of those that are asked for."""
    wires = [busy(chance, story.clean.end) for _ in names]
    wires[names.index(wire)] = story.recorded
    return Trial([write(wires, names, 1_000_000)], asked(wire), r"two|twice|several|more than one")


def sixteen_bits(chance, story, _):
    rate = chance.choice((10_000, 20_000, 50_000))
    wires, wire = among_others(chance, story, [str(it) for it in range(16)])
    return Trial([bits(wires, rate, 2)], asked(wire, "--format", "bits16", "--rate", str(rate)))


def sixteen_bits_as_eight(chance, story, _):
    """Only the first eight channels are wired: the others are low, or high, or another line is one of them."""
    rate, end, place = chance.choice((10_000, 20_000, 50_000)), story.clean.end, chance.randrange(8)
    wires = [Contact([], end)] * 8 + [Contact(chance.choice(([], [0])), end)] * 8
    wires[place] = story.recorded
    if chance.randrange(3) == 0:
        wires[place + 8] = story_of_calls(chance).recorded
    words = asked(place, "--format", "bits", "--rate", str(rate))
    return Trial([bits(wires, rate, 2)], words, r"bits16|bounce|16|two bytes|wide|channel", may_be_told=True)


def recorded_sound(chance, contact, steps, corners, rates, most_channels=2):
    """Returns the samples of a sound card, its rate, the number of channels, and the channel of the line."""
    rate, channels, place = chance.choice(rates), chance.randint(1, most_channels), 1
    step = math.exp(chance.uniform(*map(math.log, steps))) / 100
    samples = sounds.coupled(chance, contact, rate, step, chance.uniform(*corners), chance.uniform(-75, -60))
    if channels == 2:
        place = chance.randint(1, 2)
        hiss = sounds.hiss_of(chance, -60)
        samples = sounds.beside(samples, sounds.taken(hiss, len(samples)), place)
    return samples, rate, channels, place


def sound(chance, story, _, steps, corners):
    rates = 8_000, 8_000, 44_100, 48_000
    samples, rate, channels, place = recorded_sound(chance, story.recorded, steps, corners, rates)
    head = sounds.head_of(rate, channels, 2 * len(samples))
    return Trial([head, samples], asked(place), r"quiet|weak|low|loud|level|threshold|step")


def damaged_sound(chance, story, _, damage):
    samples, rate, channels, place = recorded_sound(chance, story.recorded, (40, 46), (1, 5), (8_000, 48_000))
    body, length, reason = samples.tobytes(), 0, r"length|no sample|empty|nothing|cut|data"
    if damage == "cut":
        length, body, reason = len(body), body[:chance.randrange(1, len(body))], r"cut|missing|short|end|length"
    if damage == "piece":
        length, reason = 2 * channels * round(rate * chance.uniform(0.05, 0.5)), r"length|more|follow|piece|cut|data"
    return Trial([sounds.head_of(rate, channels, length), body], asked(place), reason)


def session(_, story, folder):
    path = sigrok.session(folder, bits([story.recorded], 10_000), 10_000)
    with open(path, "rb") as made:
        return Trial([made.read()], asked("0"), r"sigrok-cli|\.sr\b|session")


def zipped(chance, story, _):
    wires, wire = among_others(chance, story, ["Channel 0", "Channel 1"])
    made = io.BytesIO()
    with zipfile.ZipFile(made, "w", zipfile.ZIP_DEFLATED) as out:
        out.writestr("digital.csv", tables.logic_2(wires, ["Channel 0", "Channel 1"], 1_000_000))
    return Trial([made.getvalue()], asked(wire), r"(?i)\bzip")


def night_as_vcd(chance, story, _, more):
    wires = [busy(chance, story.clean.end), story.recorded]
    return Trial([vcd(wires, ["LAMP", "LOOP"])], asked("LOOP", *more))


def night_as_sound(chance, story, _, more):
    samples, rate, channels, place = recorded_sound(chance, story.recorded, (40, 46), (1, 5), (8_000,), 1)
    return Trial([sounds.head_of(rate, channels, 2 * len(samples)), samples], asked(place, *more))


NIGHTS = [
    ("--seize 150", ["--seize", "150"], True), ("--seize 150 --ringing", ["--seize", "150", "--ringing"], False),
]
FORMS = [
    Form("gpiomon -c, by number", PAGE, partial(gpiomon, wire="17")),
    Form("gpiomon -c, by name", PAGE, partial(gpiomon, wire="GPIO17")),
    Form("gpiomon -c, a name with blanks", PAGE, partial(gpiomon, wire="DIAL OF 7", name="DIAL OF 7")),
    Form("gpiomon -c, by number, an edge lost", REFUSED, partial(gpiomon, wire="17", is_lost=True)),
    Form("gpiomon -c, by name, an edge lost", REFUSED, partial(gpiomon, wire="GPIO17", is_lost=True)),
    *(
        Form(f"sigrok csv:time:dedup, {sigrok.said_rate(it)}", PAGE, partial(of_sigrok, write=sigrok.timed, rate=it))
        for it in (*SHORT_RATES, 12_500, *LONG_RATES, 1_500_000)
    ),
    Form("sigrok csv, 12.5 kHz", PAGE, partial(of_sigrok, write=sigrok.untimed, rate=12_500)),
    Form("sigrok csv:label=channel, 10 kHz", PAGE,
         partial(of_sigrok, write=sigrok.untimed, rate=10_000, has_names=True)),
    Form("sigrok csv:label=channel:time:dedup", EITHER,
         partial(of_sigrok, write=sigrok.timed, rate=24_000, has_names=True)),
    Form("Saleae Logic 1", PAGE,
         partial(of_table, write=tables.logic_1, name="Channel {}", rates=(1_000_000, 24_000_000))),
    Form("DSView", PAGE, partial(of_table, write=tables.dsview, name="{}", rates=(1_000_000, 25_000_000))),
    Form("WaveForms, 10 kHz", PAGE, partial(of_waveforms, rate=10_000)),
    Form("WaveForms, 20 kHz, with a time 5e-05", EITHER, partial(of_waveforms, rate=20_000)),
    Form("Logic 2, two columns of its name", REFUSED,
         partial(twins, write=tables.logic_2, names=["Dial", "Dial", "Hook"], wire="Dial")),
    Form("sigrok csv, two columns of its name", REFUSED,
         partial(twins, write=sigrok.timed, names=["D0", "D1", "D0"], wire="D0")),
    Form("Logic 2, two other columns of a name", PAGE,
         partial(twins, write=tables.logic_2, names=["Dial", "Dial", "Hook"], wire="Hook")),
    Form("16 channels by --format bits16", PAGE, sixteen_bits),
    Form("16 channels read as bits", REFUSED, sixteen_bits_as_eight),
    Form("sound, step 40 to 46 %, 1 to 5 Hz", PAGE, partial(sound, steps=(40, 46), corners=(1, 5))),
    Form("sound, step 9 to 40 %, 0.5 to 5 Hz", EITHER, partial(sound, steps=(9, 40), corners=(0.5, 5))),
    Form("sound, step 2 to 9 %, 0.5 to 5 Hz", EITHER, partial(sound, steps=(2, 9), corners=(0.5, 5))),
    Form("WAV that is cut off", REFUSED, partial(damaged_sound, damage="cut")),
    Form("WAV with data of length 0", REFUSED, partial(damaged_sound, damage="none")),
    Form("WAV with the length of a first piece", REFUSED, partial(damaged_sound, damage="piece")),
    Form("a session of sigrok (.sr)", REFUSED, session),
    Form("a zip of a CSV", REFUSED, zipped),
    *(
        Form(f"a night as VCD, {words}", PAGE, partial(night_as_vcd, more=more),
             partial(story_of_a_night, has_answers=has_answers), 10)
        for words, more, has_answers in NIGHTS
    ),
    *(
        Form(f"a night as sound, {words}", PAGE, partial(night_as_sound, more=more),
             partial(story_of_a_night, has_answers=has_answers), 30)
        for words, more, has_answers in NIGHTS
    ),
]
