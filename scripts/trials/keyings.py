"""What was heard of keyings that keyings.c made, one after the other. `receivers` and `edges` call it.

usage: keyings.py row INDEX OBJECTS TIMES
       keyings.py doubts INDEX OBJECTS

INDEX is that of keyings.c, OBJECTS is what mfrx --json writes, and TIMES what `hear times` writes. `row` prints for how
many keyings exactly their keys were heard, by mfrx and by spandsp (- where there is no file TIMES), how many entries of
mfrx are another number, and how many are right. `doubts` prints how many keyings there are, how many entries are another
number, how many of these have no doubt, how many keyings have no entry, how many entries are right, and how many of
these have a doubt.
"""
import bisect
import json
import os
import sys

BEFORE = 300  # ms before a keying, from which on what is heard is of it


def keyings_of(name):
    """The keyings of an index: the ms from which on what is heard is of it, and the keys."""
    with open(name) as index:
        words = [line.split() for line in index]
    return [(int(it[0]) - BEFORE, it[1:]) for it in words]


def objects_of(name):
    """The keys of mfrx, each with its ms, and the entries that have digits, each with its ms, its keys and any doubt."""
    keys, entries = [], []
    with open(name) as objects:
        for it in map(json.loads, objects):
            if "entry" in it and it["sent"]:
                entries.append((it["from_ms"], ["KP", *it["sent"], "ST"], bool(it["doubts"])))
            elif "entry" not in it:
                keys.append((it["at_ms"], it["key"]))
    return keys, entries


def times_of(name):
    """The keys of spandsp, each with its ms."""
    with open(name) as times:
        return [(int(ms), key) for ms, key in map(str.split, times)]


def parts(keyings, heard):
    """What was heard of each keying."""
    of_keyings, begins = [[] for _ in keyings], [begin for begin, _ in keyings]
    for it in heard:
        of_keyings[max(0, bisect.bisect_right(begins, it[0]) - 1)].append(it)
    return of_keyings


def count_exact(keyings, heard):
    """For how many keyings exactly their keys were heard."""
    return sum([key for _, key in part] == keys for (_, keys), part in zip(keyings, parts(keyings, heard)))


def others_of(keyings, entries):
    """The entries that are another number, those that are right, and how many keyings have none."""
    of_keyings = parts(keyings, entries)
    others = [it for (_, keys), part in zip(keyings, of_keyings) for it in part if it[1] != keys]
    right = [it for (_, keys), part in zip(keyings, of_keyings) for it in part if it[1] == keys]
    return others, right, sum(not part for part in of_keyings)


def row(index, objects, times):
    """The figures of a row of `receivers`."""
    keyings = keyings_of(index)
    keys, entries = objects_of(objects)
    theirs = count_exact(keyings, times_of(times)) if os.path.exists(times) else "-"
    others, right, _ = others_of(keyings, entries)
    print(count_exact(keyings, keys), theirs, len(others), len(right))


def doubts(index, objects):
    """The figures of a row of `edges`."""
    keyings = keyings_of(index)
    others, right, missing = others_of(keyings, objects_of(objects)[1])
    trusted = sum(not is_doubted for _, _, is_doubted in others)
    print(len(keyings), len(others), trusted, missing, len(right), sum(is_doubted for _, _, is_doubted in right))


if __name__ == "__main__":
    if sys.argv[1:2] == ["row"] and len(sys.argv) == 5:
        row(*sys.argv[2:])
    elif sys.argv[1:2] == ["doubts"] and len(sys.argv) == 4:
        doubts(*sys.argv[2:])
    else:
        sys.exit(__doc__)
