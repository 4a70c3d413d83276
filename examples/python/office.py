"""Dials 234 5678 on line 7, and prints each entry in the row that makes it certain, as examples/c/dial.c does.

usage: office.py LIBRARY          the dialling
       office.py LIBRARY DECK     the page of a deck
       office.py LIBRARY --time   how many nanoseconds a row takes

The page is that of mfbank for plain decks, as of examples/c/deck.c: at most 16,777,216 bytes and 1,000,000 records,
no CR, and after the line --- no quotes, no empty lines and no byte order mark. Any other deck is refused by one line
and status 1.
"""
import re
import sys
import time

from mfchain import Office, RowError, TableError

ROUTES = """
[[route]]
code = "234"
trunk = 17
delete = 3
prefix = "56"
"""

MOST_BYTES = 16777216
MOST_RECORDS = 1000000
RECORD = re.compile("([0-9]{1,4}),([^,]),([0-9]{1,8})")


class DeckError(ValueError):
    """A deck is refused, and the text says why."""


def rows_of(number: str) -> list:
    """The makes and breaks of a number: each pulse is a break of 60 ms, and 600 ms of make end a digit."""
    rows = [("M", 500)]
    for digit in number:
        pulses = int(digit) or 10
        for pulse in range(1, pulses + 1):
            rows += [("B", 60), ("M", 40 if pulse < pulses else 600)]
    return rows + [("B", 400)]


def dial(library: str) -> None:
    """Prints each entry in the row that makes it certain."""
    office = Office(ROUTES, library)
    rows = rows_of("2345678")
    for n, (state, ms) in enumerate(rows, 1):
        marks = office.take(7, state, ms)
        if marks:
            print(f"row {n}: {office.entry(marks, office.entries(7))}")
    print(f"{len(rows)} rows")


def parts_of(deck: bytes) -> tuple:
    """The text of a deck's route table, and the text lines of its records. Raises `DeckError` where it is no plain
    deck."""
    if len(deck) > MOST_BYTES:
        raise DeckError(f"the deck is longer than {MOST_BYTES} bytes")
    if b"\r" in deck:
        raise DeckError("the deck has a CR, which is not taken here")
    ended = deck if deck.endswith(b"\n") else deck + b"\n"
    table, cut, rows = (b"\n" + ended).partition(b"\n---\n")
    if not cut:
        raise DeckError("the deck has no line ---")
    lines = rows.decode("latin-1").split("\n")[:-1]
    if lines[:1] != ["line,state,ms"]:
        raise DeckError("loop rows: the header is not line,state,ms")
    if len(lines) - 1 > MOST_RECORDS:
        raise DeckError(f"loop rows: more than {MOST_RECORDS} records")
    try:
        return table[1:].decode(), lines[1:]
    except UnicodeDecodeError:
        raise DeckError("route table: not TOML") from None


def row_of(record: str) -> tuple:
    """The line, the state and the time of a record."""
    fields = RECORD.fullmatch(record)
    if not fields:
        raise DeckError("it is not LINE,STATE,MS")
    return int(fields[1]), fields[2], int(fields[3])


def page(library: str, deck: str) -> None:
    """Prints the page of a deck."""
    with open(deck, "rb") as file:
        table, records = parts_of(file.read(MOST_BYTES + 1))
    office, entries, used = Office(table, library), [], set()

    def take(line: int, state: str, ms: int) -> None:
        marks = office.take(line, state, ms)
        used.add(line)
        if marks:
            entries.append((line, office.entries(line), marks))

    for number, record in enumerate(records, 1):
        try:
            take(*row_of(record))
        except (DeckError, RowError) as fault:
            raise DeckError(f"loop rows: record {number}: {fault}") from None
    for line in sorted(used):
        take(line, "C", 0)
    for line, number, marks in sorted(entries):
        print(office.entry(marks, number))
    refused = sum(marks[0].kind != "TRUNK" for _, _, marks in entries)
    print(f"KEYED {len(entries) - refused} REFUSED {refused}", flush=True)


def measure(library: str) -> None:
    """Prints how many nanoseconds a row takes, the best of five."""
    office, rows = Office(ROUTES, library), rows_of("2345678") * 200
    best = float("inf")
    for _ in range(5):
        start = time.perf_counter()
        for state, ms in rows:
            office.take(7, state, ms)
        best = min(best, (time.perf_counter() - start) / len(rows))
    print(f"{best * 1e9:.0f} ns a row")


def main(words: list) -> int:
    """Does what the words ask."""
    if len(words) == 1:
        dial(words[0])
    elif len(words) == 2 and words[1] == "--time":
        measure(words[0])
    elif len(words) == 2:
        try:
            page(words[0], words[1])
        except TableError as fault:
            print(f"office.py: route table: {fault}", file=sys.stderr)
            return 1
        except (DeckError, OSError) as fault:
            print(f"office.py: {fault}", file=sys.stderr)
            return 1
    else:
        print(__doc__, file=sys.stderr)
        return 2
    return 0


if __name__ == "__main__":
    sys.exit(main(sys.argv[1:]))
