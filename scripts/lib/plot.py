"""Whether a plot or a page of mfbench shows what its objects tell: a second reading, which knows nothing of mfbench.

    python3 -B scripts/lib/plot.py svg|html OBJECTS < SHOWN

A dot has to stand where the numbers of its axis say, but for a unit.
"""
import json
import os
import sys

sys.path.insert(0, os.path.dirname(os.path.abspath(__file__)))
from bench import digit_line, extent, summary_line, tenths  # noqa: E402
from drawing import Drawing, fail, parsed, wanted  # noqa: E402

MOST, WIDE, NAMED = 1000, 6000, 60
TITLES = {"speed_tenths": "pulses a second", "open_permille": "% break"}
MARGINS = {"speed_tenths": 10, "open_permille": 30}
FAINT, RED, BLUE = "#6b7a8a", "#c8102e", "#2f6db5"
COLOURS = "green: accepted; dark green: to what dials are adjusted; red: not accepted; grey: too few pulses to judge"
COLUMNS = "line  digit  pulses    p/s  % break     break ms      make ms  drift %  bounce ms  verdict"


class Axis:
    """The axis of a figure, over the window in which it is accepted."""

    def __init__(self, figure, windows):
        self.figure = figure
        self.window = windows["accept_speed_tenths" if figure == "speed_tenths" else figure]
        self.adjust = windows["adjust_speed_tenths"] if figure == "speed_tenths" else None
        margin = max((self.window["most"] - self.window["least"]) // 2, MARGINS[figure])
        self.least = max(self.window["least"] - margin, 0)
        self.most = self.window["most"] + margin

    def numbers(self):
        """Its ends, what is accepted, and to what dials are adjusted where that is something else."""
        figures = [self.least, self.most, self.window["least"], self.window["most"]]
        for end in "least", "most":
            if self.adjust and self.adjust[end] != self.window[end]:
                figures.append(self.adjust[end])
        return [tenths(figure) for figure in figures]

    def ink(self, it):
        """The colour of a dot."""
        if not self.window["least"] <= it[self.figure] <= self.window["most"]:
            return RED
        return BLUE if it["verdict"] else FAINT


def name_of(it):
    """A digit, or x where it is spoiled."""
    return "x" if it["fault"] else str(it["pulses"] % 10)


def title_of(it):
    """What is told of a digit where somebody points at its dot."""
    speed, share = tenths(it["speed_tenths"]), tenths(it["open_permille"])
    return f"digit {name_of(it)}: {speed} pulses a second, {share} % break, {it['verdict'] or '-'}"


def texts_of(windows, summary, digits):
    """What a plot says."""
    yield f"line {summary['line']:04}"
    yield summary_line(summary)[6:]
    if len(digits) > MOST:
        yield f"{len(digits) - MOST} older digits are not drawn"
    for figure, title in TITLES.items():
        yield title
        yield from Axis(figure, windows).numbers()
    if WIDE // max(len(digits[-MOST:]), 1) >= NAMED:
        yield from map(name_of, digits[-MOST:])
    yield COLOURS


def panels_of(drawing):
    """The elements of each panel, which begins with its title."""
    panels = []
    for element in drawing.elements:
        if element.says in TITLES.values():
            panels.append([])
        if panels:
            panels[-1].append(element)
    return panels


def check_dots(axis, digits, panel):
    """A panel has a dot for each digit that has the figure, in order, and where the axis says."""
    lines = [int(element.path[0][2]) for element in panel if element.kind == "path"]
    foot, top = lines[:2]
    dots = [element for element in panel if element.kind == "circle"]
    drawn = [it for it in digits if it[axis.figure] is not None]
    wanted("the dots", [(dot.says, dot.ink) for dot in dots], [(title_of(it), axis.ink(it)) for it in drawn])
    across = [dot.x for dot in dots]
    wanted("the order of the dots", across, sorted(set(across)))
    for dot, it in zip(dots, drawn):
        figure = min(max(it[axis.figure], axis.least), axis.most)
        place = foot + (top - foot) * (figure - axis.least) / max(axis.most - axis.least, 1)
        if abs(dot.y - place) > 1:
            fail(f"{dot.says!r} stands at {dot.y}, and not at {place}")


def check_plot(drawing, windows, summary, digits):
    """A plot says what digits come to, and has a dot for each figure of each of the last."""
    wanted("what is said", drawing.texts(), list(texts_of(windows, summary, digits)))
    for figure, panel in zip(TITLES, panels_of(drawing), strict=True):
        check_dots(Axis(figure, windows), digits[-MOST:], panel)


def check_page(page, windows, summaries, digits):
    """A page has the windows, and of each line the plot and the table."""
    adjust, accept = extent(windows["adjust_speed_tenths"]), extent(windows["accept_speed_tenths"])
    heard = f"dial: adjust {adjust}, accept {accept} pulses a second, {extent(windows['open_permille'])} % break"
    wanted("the windows", page.find("body/p").text, heard)
    sections = page.findall("body/section")
    wanted("how many lines there are", len(sections), len(summaries))
    for (plot, table), summary in zip(sections, summaries):
        told = digits.get(summary["line"], [])
        check_plot(Drawing(plot), windows, summary, told)
        rows = [COLUMNS] + [digit_line(it) for it in told[-MOST:]]
        wanted("the table", table.text.removeprefix("\n"), "".join(row + "\n" for row in rows))


def main(form, objects):
    """Reads both, and fails where one is not the other."""
    digits, summaries, windows = {}, [], {}
    with open(objects, encoding="utf-8") as told:
        for line in told:
            it = json.loads(line)
            if it["event"] == "WINDOWS":
                windows = it
            elif it["event"] == "DIGIT":
                digits.setdefault(it["line"], []).append(it)
            elif it["event"] == "SUMMARY":
                summaries.append(it)
    shown = parsed(sys.stdin.read())
    if form == "svg":
        (summary,) = summaries
        check_plot(Drawing(shown), windows, summary, digits.get(summary["line"], []))
    else:
        check_page(shown, windows, summaries, digits)


if __name__ == "__main__":
    main(*sys.argv[1:])
