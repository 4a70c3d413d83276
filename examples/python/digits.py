"""An office of digits: prints the page of calls that are told digit by digit, with no makes and breaks.

usage: digits.py LIBRARY TABLE [--lamps] < CALLS

TABLE is a file with a route table. CALLS are those of mfdial: a line and a number in each text line, as `7 234-5678`.
Each call seizes its line, dials, and releases it. With --lamps, what the lamps of the line show is printed after each
digit that an attempt keeps. The page is the one that mfdial and mfbank make of the same calls.
"""
import sys

from mfchain import Office, SignalError, TableError


class CallError(ValueError):
    """A call is refused, and the text says why."""


def calls_of(text: str) -> list:
    """The line and the digits of each call."""
    calls = []
    for number, row in enumerate(text.removeprefix("\ufeff").split("\n"), 1):
        row = row.strip(" \t\r")
        if row and not row.startswith("#"):
            line, _, digits = row.replace("\t", " ").partition(" ")
            digits = digits.translate({ord(" "): None, ord("-"): None})
            if not (line.isdecimal() and digits.isdecimal() and row.isascii()):
                raise CallError(f"text line {number} is not LINE NUMBER")
            calls.append((int(line), [int(digit) for digit in digits]))
    return calls


def dial(office: Office, line: int, digits: list, has_lamps: bool) -> list:
    """The marks of a call on a line."""
    marks = office.seize(line)
    for digit in digits:
        marks = marks + office.digit(line, digit)
        if has_lamps and office.dialled(line):
            print(f"{line:04} {''.join(map(str, office.dialled(line)))}")
    return marks + office.release(line)


def page(library: str, table: str, has_lamps: bool) -> None:
    """Prints the page of the calls on standard input."""
    with open(table, encoding="utf-8") as text:
        office = Office(text.read(), library)
    entries = []
    for line, digits in calls_of(sys.stdin.read()):
        marks = dial(office, line, digits, has_lamps)
        entries.append((line, office.entries(line), marks))
    for line, number, marks in sorted(entries):
        print(office.entry(marks, number))
    refused = sum(marks[0].kind != "TRUNK" for _, _, marks in entries)
    print(f"KEYED {len(entries) - refused} REFUSED {refused}")


def main(words: list) -> int:
    """Does what the words ask."""
    if not 2 <= len(words) <= 3 or words[2:] not in ([], ["--lamps"]):
        print(__doc__, file=sys.stderr)
        return 2
    try:
        page(words[0], words[1], len(words) == 3)
    except (TableError, CallError, SignalError, OSError) as fault:
        print(f"digits.py: {fault}", file=sys.stderr)
        return 1
    return 0


if __name__ == "__main__":
    sys.exit(main(sys.argv[1:]))
