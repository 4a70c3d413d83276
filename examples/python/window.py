"""A telephone in a window: the receiver, the digits, what the register has of them, and what the office makes of it.

usage: window.py TABLE [LIBRARY]      TABLE is a file with a route table; LIBRARY is the path of libmfchain.so.0
"""
import sys
import tkinter
from functools import partial

from mfchain import Office, SignalError, TableError

LINE = 7


class Telephone:
    """A line of an office, in a window."""

    def __init__(self, office: Office, window):
        self._office, self._window, self._waits = office, window, None
        self._shown = tkinter.StringVar(window, "on hook")
        tkinter.Label(window, textvariable=self._shown, width=100).pack()
        buttons = [("Lift", office.seize, ()), *((digit, office.digit, (int(digit),)) for digit in "1234567890")]
        for text, call, digit in [*buttons, ("Hang up", office.release, ())]:
            tkinter.Button(window, text=text, command=partial(self.tell, call, *digit)).pack(side="left")

    def tell(self, call, *digit) -> None:
        """Tells the register what was done, or that it waited too long, and shows what comes of it."""
        try:
            marks = call(LINE, *digit)
        except SignalError:
            return  # nobody hears a dial that is turned on hook, nor a receiver that is lifted twice
        if self._waits:
            self._window.after_cancel(self._waits)
        self._waits = None
        if marks:
            self._shown.set(self._office.entry(marks, self._office.entries(LINE)))
        elif call == self._office.release:
            self._shown.set("on hook")
        elif call == self._office.seize or self._office.dialled(LINE):
            self._shown.set(" ".join(map(str, self._office.dialled(LINE))) or "dial tone")
            self._waits = self._window.after(self._office.timeout, self.tell, self._office.time_out)


def main(words: list) -> int:
    """Does what the words ask."""
    if not 1 <= len(words) <= 2:
        print(__doc__, file=sys.stderr)
        return 2
    try:
        with open(words[0], encoding="utf-8") as text:
            office = Office(text.read(), *words[1:])
        window = tkinter.Tk()
        window.title("Line 7")
        Telephone(office, window)
        window.mainloop()
    except (OSError, UnicodeDecodeError, TableError, tkinter.TclError) as fault:
        print(f"window.py: {fault}", file=sys.stderr)
        return 1
    return 0


if __name__ == "__main__":
    sys.exit(main(sys.argv[1:]))
