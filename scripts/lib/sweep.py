"""Makes a set of test signals with their answers, and judges receivers by it; see scripts/sweep."""
import contextlib
import hashlib
import html
import json
import os
import random
import shutil
import signal
import subprocess
import sys

sys.path.insert(0, os.path.dirname(os.path.abspath(__file__)))
from page import TONES  # noqa: E402

MUST, MAY, MUST_NOT = "must", "may", "must not"
LOW, HIGH = (697, 770, 852, 941), (1209, 1336, 1477, 1633)
SIX = (700, 900, 1100, 1300, 1500, 1700)
# The digits of DTMF that have a tone over 50 Hz from those of each pair.
APART = [(low, high) for low in LOW for high in HIGH
         if all(abs(low - int(a)) > 50 or abs(high - int(b)) > 50 for a, b in (it.split("+") for it in TONES.values()))]


def timed(kp, key, gap):
    """Keys as written frequencies, by times that mftone --keys does not give them itself."""
    return lambda keys: f" silence:{gap} ".join(f"{TONES[it]}:{kp if it == 'KP' else key}" for it in keys) + f" silence:{gap}"


def keyed(words=None, *options):
    """A row of keyings of numbers by the seed: the words of their keys, and options."""
    return words or " ".join, [*options]


def sounds(words, *options):
    """A row of one sound, in which these keys are heard and no other."""
    return words, [*options]


def rows():
    """Each row: what is wanted, the limit that it tries, how many sounds, and how they are made."""
    lawful, quiet = "System R1", "--level=-13"
    for level in (-22, -20, -16, -13, -10, -8.5):
        yield MUST, f"{lawful}: level of each tone from -22 dBm0", 8, keyed(None, f"--level={level}")
    for level in (-6, -3, 0):
        yield MUST, f"{lawful}: level of each tone up to 0 dBm0, cut to 16 bits", 8, keyed(None, f"--level={level}", "--clip")
    for twist in (-6, -4, -2, 2, 4, 6):
        yield MUST, f"{lawful}: one tone up to 6 dB above the other", 8, keyed(None, quiet, f"--twist={twist}")
    for detune in (-1.5, -0.8, 0.8, 1.5):
        yield MUST, f"{lawful}: frequencies up to 1.5 % off", 8, keyed(None, f"--detune={detune}")
    for skew in (-8, -4, -1, 1, 4, 8):
        yield MUST, f"{lawful}: one tone up to 8 ms after the other", 8, keyed(None, quiet, f"--skew={skew}")
    for hole in ("3@10", "5@30", "7@20", "7@40"):
        yield MUST, "a hole of up to 7 ms in each key", 8, keyed(None, f"--hole={hole}")
    for other in ("2600:-13", "2600:-20", "60:-13", "180:-13"):
        yield MUST, "a steady tone of -13 dBm0 and less beside", 8, keyed(None, quiet, f"--tone={other}")
    for hum in (-13, -20):
        yield MUST, "hum of the mains of -13 dBm0 and less beside", 8, keyed(None, quiet, f"--hum={hum}")
    for noise in (100, 277):
        yield MUST, "noise up to 277 in each sample", 8, keyed(None, "--noise-peak", str(noise))
    yield MUST, "tones that begin anywhere in their period", 8, keyed(None, "--phase")
    several = ["--detune=1", "--skew=3", "--hole=5@20", "--hum=-20", "--noise-peak", "200", "--phase"]
    yield MUST, "several of these at once", 14, keyed(None, quiet, *several)
    for times in ((55, 30, 30), (55, 30, 25), (100, 68, 68), (110, 75, 75), (1000, 500, 500)):
        yield MUST, "KP of 55 ms, keys of 30 and gaps of 25 to 30 ms, and longer ones", 8, keyed(timed(*times))
    for level in (-24, -27, -30, -33):
        yield MAY, "tones of less than -22 dBm0", 6, keyed(None, f"--level={level}")
    for twist in (-9, -8, 8, 9):
        yield MAY, "one tone over 6 dB above the other", 6, keyed(None, "--level=-16", f"--twist={twist}")
    for detune in (-2.5, -2, 2, 2.5):
        yield MAY, "frequencies over 1.5 % off", 6, keyed(None, f"--detune={detune}")
    for skew in (-12, 10, 15):
        yield MAY, "one tone over 8 ms after the other", 6, keyed(None, quiet, f"--skew={skew}")
    for times in ((50, 25, 25), (45, 20, 30)):
        yield MAY, "KP under 55 ms and keys under 30", 6, keyed(timed(*times))
    for hole in ("10@20", "12@30", "20@20"):
        yield MAY, "a hole of over 7 ms in each key", 6, keyed(None, f"--hole={hole}")
    for other in ("2600:-7", "2600:-1", "440:-13", "1000:-20"):
        yield MAY, "another tone beside, louder or between those of the keys", 6, keyed(None, "--level=-13", f"--tone={other}")
    for noise in (1000, 3000, 6000):
        yield MAY, "noise over 277 in each sample", 6, keyed(None, "--noise-peak", str(noise))
    for detune in (-10, -6, 6, 10):
        yield MUST_NOT, "keys that are 6 % off and more", 4, keyed(None, f"--detune={detune}")
    yield MUST_NOT, "keys of -40 dBm0", 4, keyed(None, "--level=-40")
    yield MUST_NOT, "keys of 10 ms", 4, keyed(timed(10, 10, 50))
    for hz in SIX:
        yield MUST_NOT, "one tone alone", 2, sounds(f"silence:200 {hz}:500 silence:200")
    for n in range(4):
        yield MUST_NOT, "three tones at once", 2, sounds("silence:200 " + "+".join(map(str, SIX[n:n + 3])) + ":500 silence:200")
    for tones in ("350+440:5000", "440+480:2000 silence:2000 440+480:2000", " ".join(["480+620:500 silence:500"] * 5)):
        yield MUST_NOT, "dial tone, ringback and busy tone", 2, sounds(tones)
    for low, high in APART:
        yield MUST_NOT, "a digit of DTMF", 2, sounds(f"silence:200 {low}+{high}:100 silence:200", "--level=-10")
        yield MUST_NOT, "a digit of DTMF between KP and ST", 1, sounds(f"KP {low}+{high}:68 silence:68 ST", "--level=-10")


def signals():
    """Each sound: what is wanted, why, its keys, its words, and options; the noise and the phases have seeds of their own."""
    dice = random.Random(68)
    for want, why, count, (words, options) in rows():
        for _ in range(count):
            number = [dice.choice("0123456789") for _ in range(dice.randrange(3, 12))]
            seed = [] if not {"--noise-peak", "--phase"} & set(options) else ["--seed", str(dice.randrange(1 << 31))]
            if isinstance(words, str):
                yield want, why, [it for it in words.split() if it in TONES], words, options + seed
            else:
                keys = ["KP", *number, "ST"]
                yield want, why, [] if want == MUST_NOT else keys, words(keys), options + seed


@contextlib.contextmanager
def made_in(folder):
    """Makes a folder where there is none, and takes that away again where what is made in it does not come to its end."""
    is_new = not os.path.isdir(folder)
    os.makedirs(folder, exist_ok=True)
    try:
        yield
    except BaseException:
        if is_new:
            shutil.rmtree(folder, ignore_errors=True)
        raise


def make(folder, mftone):
    if os.path.isdir(folder) and os.listdir(folder):
        sys.exit(f"sweep: {folder} is not empty")
    counts = dict.fromkeys((MUST, MAY, MUST_NOT), 0)
    with made_in(folder), open(os.path.join(folder, "manifest.jsonl"), "w") as manifest:
        for n, (want, why, keys, words, options) in enumerate(signals(), 1):
            name, command = f"{n:03}.wav", ["mftone", "--keys", words, *options]
            made = subprocess.run([mftone, *command[1:]], stdin=subprocess.DEVNULL, stdout=subprocess.PIPE, stderr=subprocess.PIPE)
            if made.returncode:
                sys.exit(f"sweep: {name}: {made.stderr.decode().strip()}")
            with open(os.path.join(folder, name), "wb") as sound:
                sound.write(made.stdout)
            it = {"file": name, "sha256": hashlib.sha256(made.stdout).hexdigest(), "command": command, "keys": keys,
                  "want": want, "why": why}
            print(json.dumps(it), file=manifest)
            counts[want] += 1
    print(f"{sum(counts.values())} sounds: {counts[MUST]} must be heard, {counts[MAY]} may, {counts[MUST_NOT]} must not")


def heard_by_mfrx(mfrx):
    def heard(path):
        with open(path, "rb") as sound:
            told = subprocess.run([mfrx, "--json"], stdin=sound, stdout=subprocess.PIPE, stderr=subprocess.DEVNULL, check=True)
        objects = [json.loads(line) for line in told.stdout.splitlines()]
        return [it["key"] for it in objects if "key" in it], any(it["doubts"] for it in objects if "doubts" in it)
    return heard


def heard_by_spandsp(hear):
    def heard(path):
        with open(path, "rb") as sound:
            samples = sound.read()[44:]
        return subprocess.run([hear], input=samples, stdout=subprocess.PIPE, check=True).stdout.decode().split(), False
    return heard


def heard_by(command):
    def heard(path):
        return subprocess.run([*command, path], stdout=subprocess.PIPE, check=True).stdout.decode().split(), False
    return heard


def keyings_of(keys):
    """The keys of each number: those from a KP to the next ST. What sounds in none is no number."""
    keyings, begun = [], None
    for key in keys:
        if key == "KP":
            begun = []
        if begun is not None:
            begun.append(key)
            if key == "ST":
                keyings.append(begun)
                begun = None
    return keyings


def judge(folder, mfrx, hear, *command):
    receivers = {"mfrx": heard_by_mfrx(mfrx)}
    if hear:
        receivers["spandsp"] = heard_by_spandsp(hear)
    if command:
        receivers[os.path.basename(command[0])] = heard_by(command)
    table, failed = {}, 0
    with open(os.path.join(folder, "manifest.jsonl")) as manifest:
        for it in (it for it in map(json.loads, manifest) if "keys" in it):
            path = os.path.join(folder, it["file"])
            with open(path, "rb") as sound:
                if hashlib.sha256(sound.read()).hexdigest() != it["sha256"]:
                    sys.exit(f"sweep: {it['file']} is not the one of the manifest")
            row = table.setdefault((it["want"], it["why"]), [0, {name: [0, 0, 0] for name in receivers}])
            row[0] += 1
            for name, heard in receivers.items():
                keys, is_doubtful = heard(path)
                counts = row[1][name]
                counts[0] += keys == it["keys"]
                is_other = any(keying != it["keys"] for keying in keyings_of(keys))
                counts[1] += is_other
                counts[2] += is_other and is_doubtful
                is_wrong = keys != it["keys"] if it["want"] != MAY else is_other and not is_doubtful
                failed += name == "mfrx" and is_wrong
    cells = [["Want", "Limit", "Sounds", *receivers]]
    for (want, why), (count, heard) in table.items():
        cells.append([want, why, str(count), *(told(*heard[name]) for name in receivers)])
    print_table(cells)
    with open(os.path.join(folder, "judged.html"), "w") as page:
        page.write(page_of(cells))
    if failed:
        sys.exit(f"sweep: mfrx is wrong of {failed} sounds")


def print_table(cells):
    for n, line in enumerate(cells):
        print("| " + " | ".join(line) + " |")
        if n == 0:
            print("|---" * len(line) + "|")


def told(right, others, doubtful):
    """How many are heard as is wanted, how many as another number, and of how many of those a doubt is told."""
    if not others:
        return str(right)
    return f"{right}; {others} as another number" + (f", {doubtful} of them told as doubtful" if doubtful else "")


def page_of(cells):
    head, *lines = [[html.escape(it) for it in line] for line in cells]
    return ("<!DOCTYPE html>\n<html lang=\"en\">\n<meta charset=\"utf-8\">\n<title>What was heard</title>\n"
            "<style>\nbody{font-family:sans-serif;max-width:1100px;margin:2em auto}\n"
            "td,th{border-bottom:1px solid #ccc;padding:.3em .8em;text-align:left}\n</style>\n"
            "<h1>What was heard</h1>\n<table>\n"
            + "<tr>" + "".join(f"<th>{it}</th>" for it in head) + "</tr>\n"
            + "".join("<tr>" + "".join(f"<td>{it}</td>" for it in line) + "</tr>\n" for line in lines)
            + "</table>\n</html>\n")


def work(works):
    """Does the work that the first word names. What the machine refuses is one line."""
    for it in (signal.SIGHUP, signal.SIGINT, signal.SIGTERM):
        signal.signal(it, lambda number, _: sys.exit(128 + number))
    try:
        works[sys.argv[1]](*sys.argv[2:])
    except OSError as error:
        sys.exit(f"sweep: {error.filename or sys.argv[2]}: {error.strerror}")


if __name__ == "__main__":
    work({"make": make, "judge": judge})
