"""What a manual page says of each option beside what the program's help says of it.

usage: options.py PAGE < HELP

PAGE is a manual page in mdoc, and HELP is what the program prints for --help. Of each option both have to name the same
value, and the page every number, every option and every one of several words of the line of help. A line is printed for
each thing that is missing, and the status is 1 where there is one.
"""

import re
import sys

NUMBER = r"(?<![\w.,:-])\d+(?:\.\d+)?(?![\w:-]|[.,]\d)"
OPTION = r"--[a-z][a-z-]*"
CHOICE = r": ([\w.-]+(?: or [\w.-]+)+)"


def of_help(text):
    """The options of help: the value of each, and what is said of it."""
    items = re.findall(r"^  (--[a-z][a-z-]*)(?: (.*))?\n((?:        .*\n)*)", text, re.M)
    return {name: (value, " ".join(said.split())) for name, value, said in items}


def of_page(text):
    """The options of a manual page, in the same form."""
    plain = text.replace("\\&", "").replace("Fl \\-", "--").replace("\\-", "-")
    items = re.findall(r"^\.It (--[a-z][a-z-]*)(.*)\n((?:(?!\.It |\.El).*\n)*)", plain, re.M)
    return {name: (re.sub(r"\b(Ar|Ns|Cm)\b|\s", "", value), said) for name, value, said in items}


def words_of(said):
    """The numbers, the options and the choices in a line of help."""
    choices = [word for found in re.findall(CHOICE, said) for word in found.split(" or ")]
    said = said.replace(", from 0", "")
    return re.findall(NUMBER, said) + re.findall(OPTION, said) + choices


def missing(told, paged):
    """What a page lacks of what help says."""
    for name, (value, said) in told.items():
        if name not in paged:
            yield f"{name} is not in the page"
            continue
        on_page, text = paged[name]
        if on_page.lower() != value.lower().removesuffix(",..").replace(" ", ""):
            yield f"{name} takes {value or 'nothing'}, and the page says {on_page or 'nothing'}"
        for word in words_of(said):
            if not re.search(rf"(?<![\w-]){re.escape(word)}(?![\w-])", text):
                yield f"{name}: the page does not say {word}"


def main():
    with open(sys.argv[1], encoding="utf-8") as page:
        faults = list(missing(of_help(sys.stdin.read()), of_page(page.read())))
    for fault in faults:
        print(fault)
    sys.exit(bool(faults))


main()
