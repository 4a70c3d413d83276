"""Makes recordings of each form by a seed, gives them to mfloop, and compares the pages of its rows.

usage: python3 -B scripts/trials/night MFLOOP MFBANK RECORDINGS [FOLDER]

A recording whose page is not as it has to be is left in FOLDER, with the words, the deck and the page that were wanted.
"""
import os
import random
import re
import subprocess
import sys
import tempfile

import sigrok
from forms import FORMS, LONG_RATES, PAGE, REFUSED, SHORT_RATES

SEED = 20_261_114
SECONDS = 300
OK, NO, UNCLEAR, OTHER = "ok", "refused", "unclear", "OTHER"


def fails(what):
    print(f"nights: {what}", file=sys.stderr)
    sys.exit(1)


def page_of(mfbank, deck):
    """Returns the page of a deck, or what mfbank says of it."""
    ran = subprocess.run([mfbank], input=deck, capture_output=True, check=False, timeout=SECONDS)
    return (ran.stdout if ran.returncode == 0 else ran.stderr).decode()


def heard(mfloop, words, path):
    """Returns the status, the rows and what is said of a recording."""
    with open(path, "rb") as recording:
        try:
            ran = subprocess.run(
                [mfloop, *words], stdin=recording, capture_output=True, check=False, timeout=SECONDS)
        except subprocess.TimeoutExpired:
            return -1, b"", f"it goes on after {SECONDS} s"
    return ran.returncode, ran.stdout, ran.stderr.decode(errors="replace").strip()


def verdict(form, trial, status, said, is_page):
    """Returns what came of a recording: OTHER where a page is printed that is not the one that was wanted."""
    wanted = "" if form.has_to_be == PAGE else trial.reason
    is_named = bool(said) and "\n" not in said and re.search(wanted, said) is not None
    if status == 0:
        if form.has_to_be == REFUSED:
            return NO if trial.may_be_told and is_named else OTHER
        return OK if is_page else OTHER
    return NO if status == 1 and is_named else UNCLEAR


def is_wrong(form, came):
    """Whether a form may not come to this."""
    return came in (UNCLEAR, OTHER) or (came == NO and form.has_to_be == PAGE)


def first_difference(page, wanted):
    """Returns the first lines in which two pages differ, shortened."""
    got, right = page.splitlines(), wanted.splitlines()
    for at in range(max(len(got), len(right))):
        pair = [(lines[at:at + 1] or ["(no line)"])[0] for lines in (got, right)]
        if pair[0] != pair[1]:
            return "the page has {}, and not {}".format(*(re.sub(r":\d+\+\d+", "", it) for it in pair))
    return "the page is the clean one, but the recording had to be refused"


def leave(folder, name, path, words, story):
    """Leaves a recording with what was wanted of it."""
    os.makedirs(folder, exist_ok=True)
    at = os.path.join(folder, re.sub(r"[^a-z0-9.]+", "_", name.lower()))
    os.replace(path, at + ".recording")
    for end, text in (("words", " ".join(words) + "\n"), ("deck", story.deck()), ("page", story.page())):
        with open(f"{at}.{end}", "w", encoding="ascii") as out:
            out.write(text)


class Tried:
    """The programs, a folder to write in, and one to leave recordings in, or none."""

    def __init__(self, mfloop, mfbank, made, kept):
        self.mfloop, self.mfbank, self.made, self.kept = mfloop, mfbank, made, kept

    def one(self, form, number):
        """Tries one recording, and returns what came of it, and what there is to say of that."""
        chance = random.Random(f"{SEED} {form.name} {number}")
        story = form.story(chance)
        trial = form.make(chance, story, self.made)
        wanted, path = story.page(), os.path.join(self.made, "recording")
        if page_of(self.mfbank, story.deck().encode()) != wanted:
            fails(f"{form.name}, {number}: mfbank gives another page of the clean deck")
        with open(path, "wb") as out:
            out.writelines(trial.recording)
        status, rows, said = heard(self.mfloop, trial.words, path)
        page = page_of(self.mfbank, story.table.encode() + b"---\n" + rows) if status == 0 else ""
        came = verdict(form, trial, status, said, page == wanted)
        if is_wrong(form, came):
            said = said or first_difference(page, wanted)
            if self.kept:
                leave(self.kept, f"{form.name}_{number}", path, trial.words, story)
        return came, f"{number}: status {status}: {said[:160]}"

    def all_of(self, form, recordings):
        """Tries the recordings of a form, and returns how many came to what, and the first of each that may not be."""
        counts, notes = dict.fromkeys((OK, NO, UNCLEAR, OTHER), 0), {}
        for number in range(-(-recordings // form.among)):
            came, note = self.one(form, number)
            counts[came] += 1
            if is_wrong(form, came):
                notes.setdefault(came, note)
        return counts, notes


def told(form, counts):
    figures = "".join(f"{it:>9}" for it in counts.values())
    return f"{form.name:<46}{figures}   {form.has_to_be}"


def main(mfloop, mfbank, recordings, kept=None):
    found = {}
    with tempfile.TemporaryDirectory() as made:
        other = sigrok.differs(made, (*SHORT_RATES, 12_500, *LONG_RATES))
        if other:
            fails(f"sigrok-cli writes something else than scripts/trials/night/sigrok.py: {other}")
        tried = Tried(mfloop, mfbank, made, kept)
        print(f"{'form':<46}{OK:>9}{NO:>9}{UNCLEAR:>9}{OTHER:>9}   has to be")
        for form in FORMS:
            counts, notes = tried.all_of(form, int(recordings))
            print(told(form, counts), flush=True)
            if notes:
                found[form.name] = notes
    for name, notes in found.items():
        for came, note in notes.items():
            print(f"nights: {came}: {name}, recording {note}", file=sys.stderr)
    return 1 if found else 0


sys.exit(main(*sys.argv[1:]))
