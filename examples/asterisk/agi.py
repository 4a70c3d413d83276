#!/usr/bin/env python3
"""An AGI script of Asterisk: hears the digits of a call, and leaves in MF what a No. 5 Crossbar office keys for it.

usage: AGI(agi.py,TABLE[,LIBRARY])   TABLE is a file with a route table; LIBRARY is the path of libmfchain.so.0

MF is empty where the office refuses the call; else * stands for KP and # for ST in it, as SendMF takes them. A caller's
# says that no more comes, as the table's `timeout` without a digit does. What goes wrong is one line on standard error,
with status 1, and MF is then left as it was.
"""
import re
import sys
from pathlib import Path

sys.dont_write_bytecode = True  # no folder beside what is installed
sys.path.append(str(Path(__file__).resolve().parents[1] / "python"))
from mfchain import Office, TableError

KEYS = {"TRUNK": "", "KP": "*", "ST": "#"}
TIMED_OUT, NO_MORE = 0, ord("#")
DIGITS = {ord(digit): int(digit) for digit in "0123456789"}


class Unanswered(Exception):
    """A command got no answer with a result: the call is over, or Asterisk does not take the command."""


def ask(command: str) -> int:
    """What Asterisk answers to a command."""
    print(command, flush=True)
    for line in sys.stdin:
        if line.startswith("HANGUP"):
            continue  # a notice: the answer still comes
        answer = re.match(r"200 result=(-?[0-9]+)", line)
        if answer:
            return int(answer[1])
        raise Unanswered(f"Asterisk answers {command!r} with {line.strip()!r}")
    raise Unanswered(f"Asterisk does not answer {command!r}")


def marks_of_call(office: Office) -> list:
    """What the office makes of one call."""
    marks = office.seize(0)
    while not marks:
        key = ask(f"WAIT FOR DIGIT {office.timeout}")
        if key < 0:
            marks = office.release(0)
        elif key in (TIMED_OUT, NO_MORE):
            marks = office.time_out(0)
        elif key in DIGITS:
            marks = office.digit(0, DIGITS[key])
        else:
            marks = office.mutilated_digit(0)
    return marks


def serve(table: str, *library: str) -> None:
    """Serves one call by a file with a route table."""
    with open(table, encoding="utf-8") as text:
        office = Office(text.read(), *library)
    while sys.stdin.readline().strip():
        pass  # what Asterisk says of the call before it listens
    marks = marks_of_call(office)
    keyed = marks[-1].kind == "ST"
    ask('SET VARIABLE MF "' + "".join(KEYS.get(it.kind, str(it.value)) for it in marks if keyed) + '"')


if not 2 <= len(sys.argv) <= 3:
    sys.exit("usage: AGI(agi.py,TABLE[,LIBRARY])")
try:
    serve(*sys.argv[1:])
except (OSError, UnicodeDecodeError, TableError, Unanswered) as fault:
    sys.exit(f"agi.py: {fault}")
