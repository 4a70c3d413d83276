"""usage: python3 scripts/lib/page.py < OBJECTS

Makes the page of the objects of `mflive --json`, as mfbank prints it, and knows nothing of either but their words."""
import json
import sys

TONES = {
    "1": "700+900", "2": "700+1100", "3": "900+1100", "4": "700+1300", "5": "900+1300", "6": "1100+1300",
    "7": "700+1500", "8": "900+1500", "9": "1100+1500", "0": "1300+1500", "KP": "1100+1700", "ST": "1500+1700",
}


def text_of(entry):
    head = f"{entry['line']:04} {entry['entry']} {entry['outcome']}"
    if entry["outcome"] == "REFUSED":
        return f"{head} {entry['reason']} {entry['heard']}"
    return " ".join([head, f"{entry['trunk']:04}"] + [f"{key}:{TONES[key]}" for key in entry["keys"]])


if __name__ == "__main__":
    objects = [json.loads(line) for line in sys.stdin]
    totals = objects.pop()
    for entry in sorted(objects, key=lambda entry: (entry["line"], entry["entry"])):
        print(text_of(entry))
    print(f"KEYED {totals['keyed']} REFUSED {totals['refused']}")
