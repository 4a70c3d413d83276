"""Whether a page in HTML, or a picture, shows keys: a second reading of the definitions, which knows nothing of mfrx.

usage: shown.py html|svg OBJECTS < SHOWN

OBJECTS are the keys of a sound, as mfrx --json tells them, and SHOWN is what mfrx --html or --svg writes of the same
sound. What is shown has to be XML, with all that is said of each key, in order, and two bars for each.
"""
import json
import os
import sys

sys.path.insert(0, os.path.join(os.path.dirname(os.path.abspath(__file__)), "..", "lib"))
from drawing import Drawing, fail, parsed, wanted  # noqa: E402

# The two frequencies of each key, in Hz.
PAIRS = {
    "1": (700, 900), "2": (700, 1100), "3": (900, 1100), "4": (700, 1300), "5": (900, 1300), "6": (1100, 1300),
    "7": (700, 1500), "8": (900, 1500), "9": (1100, 1500), "0": (1300, 1500), "KP": (1100, 1700), "ST": (1500, 1700),
    "ST'": (900, 1700), "KP2/ST''": (1300, 1700), "ST'''": (700, 1700),
}
MOST_DIGITS = 64
MOST_DRAWN = 40
ROW_MS = 1800
# What the scales say: a frequency, or a time.
SCALE = r"(700|900|1100|1300|1500|1700) Hz|\d+\.\d s"
BLUE, PALE_BLUE, PALE_RED = "#2f6db5", "#e8f0fa", "#fdeaec"


def seconds(ms):
    """A time in seconds."""
    return "%d.%03d" % divmod(ms, 1000)


def tenths(number):
    """A number in tenths."""
    return "%s%d.%d" % ("-" if number < 0 else "", *divmod(abs(number), 10))


def parts_of(keys):
    """The keyings, each with the number of its entry, and each key in none, with no number."""
    parts, at, entries = [], 0, 0
    while at < len(keys):
        past = at + 1
        while past < len(keys) and past - at <= MOST_DIGITS and keys[past]["key"].isdigit():
            past += 1
        if keys[at]["key"] == "KP" and past < len(keys) and keys[past]["key"] == "ST":
            entries += 1
            parts.append((entries, keys[at : past + 1]))
            at = past + 1
        else:
            parts.append((None, keys[at : at + 1]))
            at += 1
    return parts


def heading(part):
    """What keys are, and what was heard."""
    number, keys = part
    at = seconds(keys[0]["at_ms"])
    if number is None:
        return [f"key at {at} s", "in no keying"]
    return [f"entry {number} at {at} s", "".join(key["key"] for key in keys if key["key"].isdigit())]


def missed(key):
    """The limits that a key misses."""
    return [] if key["verdict"] == "GOOD" else key["verdict"].split(" ")


def rows_of(keys):
    """Each key with the time at which its row begins."""
    start = None
    for key in keys:
        if start is None or key["at_ms"] + key["length_ms"] - start > ROW_MS:
            start = key["at_ms"]
        yield key, start


def said_of(part):
    """What a picture has to say of a part."""
    yield from heading(part)
    for key, start in rows_of(part[1]):
        yield key["key"]
        yield f"{key['length_ms']} ms"
        for limit in missed(key):
            yield limit
            if limit == "GAP" and key["at_ms"] != start:
                yield f"{key['gap_ms']} ms"


def check_bars(drawing, parts):
    """Each key has a shade and two bars, where it sounds; the higher tone stands above the lower one."""
    bars = iter([element for element in drawing.elements if element.ink == BLUE])
    shades = iter([element for element in drawing.elements if element.ink in (PALE_BLUE, PALE_RED)])
    for _, keys in parts:
        left = None
        for key, start in rows_of(keys):
            name = f"key {key['key']} at {key['at_ms']} ms"
            shade = next(shades)
            wanted(f"the ground of {name}", shade.ink, PALE_RED if missed(key) else PALE_BLUE)
            if "GAP" in missed(key) and key["at_ms"] != start:
                wanted(f"the gap before {name}", next(shades).right, shade.x)
            low, high = next(bars), next(bars)
            left = shade.x if left is None else left
            length = min(key["at_ms"] + key["length_ms"] - start, ROW_MS) - (key["at_ms"] - start)
            wanted(f"where {name} begins", shade.x - left, 3 * (key["at_ms"] - start))
            for bar, level in (low, key["low_dbm0_tenths"]), (high, key["high_dbm0_tenths"]):
                wanted(f"a bar of {name}", (bar.x, bar.wide), (shade.x, 3 * length))
                wanted(f"how strong {name} is", bar.high, min(10 + max(level + 330, 0) // 4, 102))
            lanes = [(shade.foot - bar.foot) * 6 // shade.high for bar in (low, high)]
            wanted(f"the lanes of {name}", lanes, [(hz - 700) // 200 for hz in PAIRS[key["key"]]])
    if next(bars, None) or next(shades, None):
        fail("there are more bars than keys")


def check_drawing(drawing, parts, others=()):
    """A picture says what there is to say of parts, and no more."""
    wanted("what is said", drawing.texts(SCALE), [text for part in parts for text in said_of(part)] + list(others))
    check_bars(drawing, parts)


def line(key):
    """The line of a key."""
    skew = "unknown" if key["skew_ms_tenths"] is None else tenths(key["skew_ms_tenths"]) + " ms"
    gap = "first" if key["gap_ms"] is None else f"after {key['gap_ms']} ms"
    return (
        f"{key['key']} at {key['at_ms']} ms for {key['length_ms']} ms, "
        f"{key['low_hz']} Hz {tenths(key['low_dbm0_tenths'])} dBm0, "
        f"{key['high_hz']} Hz {tenths(key['high_dbm0_tenths'])} dBm0, twist {tenths(key['twist_db_tenths'])} dB, "
        f"skew {skew}, hole {key['hole_ms']} ms, {gap}: {key['verdict']}\n"
    )


def doubts(part):
    """The line of what is doubtful of an entry, by the rhythm of its keys."""
    number, keys = part
    if number is None:
        return ""
    lengths, gaps = sorted(key["length_ms"] for key in keys[1:]), sorted(key["gap_ms"] for key in keys[1:])
    usual, gap = lengths[(len(lengths) - 1) // 2], gaps[(len(gaps) - 1) // 4]
    told = []
    for count, key in enumerate(keys[1:], 2):
        between = f"{key['gap_ms']} ms between its keys {count - 1} and {count}, where {gap} are usual: "
        if key["gap_ms"] > gap + (gap + usual) // 2 + 8:
            told.append(between + "one may be missing")
        elif key["gap_ms"] < 20:
            told.append(between + "one may be too many")
        lasts = f"its key {count} lasts {key['length_ms']} ms, where {usual} are usual: "
        if key["length_ms"] > usual + 2 * usual // 3 + 6:
            told.append(lasts + "one may be missing")
        elif key["length_ms"] < usual // 2:
            told.append(lasts + ("one may be too many" if key["key"].isdigit() else "it may be cut"))
    if not told:
        return ""
    more = f"; the first of {len(told)} doubts" if len(told) > 1 else ""
    return f"mfrx: entry {number} at {seconds(keys[0]['at_ms'])} s: {told[0]}{more}\n"


def check_page(page, parts):
    """A page has a section for each part: its heading, its picture, its lines, and its doubts."""
    wanted("the page", page.tag, "html")
    sections = page.findall("body/section")
    wanted("how many sections there are", len(sections), len(parts))
    for section, part in zip(sections, parts):
        title, picture, lines, told = section
        wanted("a heading", title.text, ": ".join(heading(part)))
        check_drawing(Drawing(picture), [part])
        wanted("the lines of keys", lines.text or "", "".join(map(line, part[1])))
        wanted("what is doubtful", told.text or "", doubts(part))


def main():
    """Reads both, and fails where one is not the other."""
    if len(sys.argv) != 3 or sys.argv[1] not in ("html", "svg"):
        sys.exit("shown.py: usage: shown.py html|svg OBJECTS < SHOWN")
    with open(sys.argv[2], encoding="utf-8") as objects:
        told = [json.loads(text) for text in objects]
    parts = parts_of([it for it in told if "entry" not in it])
    shown = parsed(sys.stdin.read())
    if sys.argv[1] == "html":
        check_page(shown, parts)
    else:
        others = len(parts) - MOST_DRAWN
        check_drawing(Drawing(shown), parts[:MOST_DRAWN], [f"{others} more are not drawn"] if others > 0 else [])


main()
