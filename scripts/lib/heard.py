"""usage: python3 scripts/lib/heard.py DECK < OBJECTS

Makes the report of the objects of `mfhear --json`, all but its first line, and knows nothing of either but their words. Of
each run that names a text line of the deck, this line has to be a record of the object's line, with the run's contact."""
import json
import sys

COLUMNS = "  digit  pulses    p/s  % break  break ms   make ms  pause ms"
WRONG = {"SHORT_BREAK": "break {ms} ms < {limit}", "LONG_BREAK": "break {ms} ms > {limit}",
         "SHORT_MAKE": "make {ms} ms < {limit}", "TOO_MANY_PULSES": "pulse 11"}
CONTACTS = {"SHORT_BREAK": "B", "LONG_BREAK": "B", "SHORT_MAKE": "M", "TOO_MANY_PULSES": "B"}


def place(run):
    return f"{run['from_ms'] // 1000}.{run['from_ms'] % 1000:03} s, record {run['record']}"


def tenths(number):
    return "-" if number is None else f"{number // 10}.{number % 10}"


def extent(found):
    if found is None:
        return "-"
    return str(found["least"]) if found["least"] == found["most"] else f"{found['least']}-{found['most']}"


def remark(digit):
    fault = digit["fault"]
    said = [] if digit["taken"] else ["ignored"]
    if fault:
        said.append(f"{WRONG[fault['kind']].format(**fault)} at {place(fault)}")
    return "  " + "; ".join(said) if said else ""


def rounded(number, divisor):
    return (2 * number + divisor) // (2 * divisor) if divisor else None


def row(digit):
    name = "x" if digit["digit"] is None else digit["digit"]
    periods = digit["periods"]
    assert digit["speed_tenths"] == rounded(10000 * periods["count"], periods["ms"]), digit
    assert digit["open_permille"] == rounded(1000 * periods["open_ms"], periods["ms"]), digit
    return (f"  {name:>5}  {digit['pulses']:>6}  {tenths(digit['speed_tenths']):>5}  {tenths(digit['open_permille']):>7}"
            f"  {extent(digit['breaks_ms']):>8}  {extent(digit['makes_ms']):>8}  {digit['pause_ms']:>8}{remark(digit)}")


def report(attempt):
    came = f"NUMBER {attempt['number']}" if attempt["number"] else f"REFUSED {attempt['reason']} {attempt['heard']}"
    yield f"\nline {attempt['line']:04}, attempt {attempt['attempt']} from {place(attempt['begins'])}: {came}"
    if attempt["digits"]:
        yield COLUMNS
        yield from map(row, attempt["digits"])
    end = attempt["end"]
    if unfinished := end["unfinished"]:
        yield f"  pulses that no pause ended: {end['unfinished_pulses']}, from {place(unfinished)}"
    if timeout := end["timeout"]:
        why = "timed out by" if attempt["reason"] == "TIMEDOUT" else "nothing more is heard after"
        yield f"  {why} a make of {timeout['ms']} ms at {place(timeout)}"
    released = end["released"]
    yield f"  hung up for {released['ms']} ms at {place(released)}" if released else "  the record ends"


def named(attempt):
    """The runs of an attempt that have a place, each with its contact."""
    yield attempt["begins"], "M"
    for name, contact in (("unfinished", "B"), ("timeout", "M"), ("released", "B")):
        yield attempt["end"][name], contact
    for digit in attempt["digits"]:
        if fault := digit["fault"]:
            yield fault, CONTACTS[fault["kind"]]


with open(sys.argv[1], encoding="utf-8") as deck:
    lines = deck.read().split("\n")
for text in sys.stdin:
    attempt = json.loads(text)
    for run, contact in named(attempt):
        if run and run["text_line"] is not None:
            line, state, _ = lines[run["text_line"] - 1].split(",")
            if (int(line), state) != (attempt["line"], contact):
                sys.exit(f"heard.py: text line {run['text_line']} is not that of {run}")
    print("\n".join(report(attempt)))
