"""Compares the objects of a deck with the report of mfhear and with the deck's records; the script objects calls it."""
import json
import re
import sys

HEAD = re.compile(r"line (\d+), attempt (\d+) from (\d+)\.(\d{3}) s, record \d+: (NUMBER|REFUSED) ?(.*)")


def reported():
    """What mfhear says of each attempt: when it begins, and its number or why there is none."""
    said = {}
    for text in sys.stdin:
        if found := HEAD.match(text):
            line, attempt, seconds, ms, outcome, rest = found.groups()
            said[int(line), int(attempt)] = (int(seconds) * 1000 + int(ms), outcome, rest.strip())
    return said


def sums(deck):
    """How long the records of each line last."""
    last = {}
    for record in deck.read().split("---\n", 1)[1].splitlines()[1:]:
        line, _, ms = record.split(",")
        last[int(line)] = last.get(int(line), 0) + int(ms)
    return last


def check(condition, entry):
    if not condition:
        sys.exit(f"objects.py: {entry}")


with open(sys.argv[1]) as deck:
    lasted = sums(deck)
with open(sys.argv[2]) as objects:
    entries = [json.loads(line) for line in objects][:-1]
said = reported()
check(len(said) == len(entries), f"mfhear tells of {len(said)} attempts, mflive of {len(entries)}")
before = {}
for entry in entries:
    began, outcome, rest = said[entry["line"], entry["entry"]]
    check(entry["from_ms"] == began, entry)
    check(before.get(entry["line"], 0) <= entry["from_ms"] <= entry["at_ms"] <= lasted[entry["line"]], entry)
    before[entry["line"]] = entry["at_ms"]
    if outcome == "NUMBER":
        check(entry["dialled"] == rest, entry)
        check(entry["outcome"] == "KEYED" or entry["reason"] == "UNKNOWN", entry)
    else:
        check(rest == f"{entry['reason']} {entry['heard']}", entry)
        check(len(entry["dialled"]) == entry["heard"], entry)
