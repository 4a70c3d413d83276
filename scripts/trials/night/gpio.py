"""What gpiomon of libgpiod 2.2 prints of contacts: with a chip given (-c) the chip and the number of a line, and its
name where it has one, in quotes unless --unquoted is given."""
import itertools

SECOND = 1_000_000_000


def edges(lines, since):
    """Returns the text line of each edge of some contacts, each with what gpiomon calls its line, in the order of time,
    and the place of the contact before it. The clock began so many ns before the recording."""
    known = sorted((since + ns, place, at) for place, (it, _) in enumerate(lines) for at, ns in enumerate(it.changes))
    return [
        (place, f"{ns // SECOND}.{ns % SECOND:09}\t{('rising', 'falling')[at % 2]}\t{lines[place][1]}\n")
        for ns, place, at in known
    ]


def without_one(chance, known):
    """Returns the edges without one of the first contact, and the text line on which its next one then stands. Neither
    its first edge nor its last one is taken: nothing tells that such a one is missing."""
    own = [at for at, (place, _) in enumerate(known) if place == 0]
    lost, after = chance.choice(list(itertools.pairwise(own[1:])))
    return known[:lost] + known[lost + 1:], after


def text_of(known):
    """Returns the recording of these edges."""
    return "".join(line for _, line in known).encode()
