"""usage: scripts/tries/times.py SINCE OBJECTS TIMED

Compares what mflive prints of one deck, or mfrx of one sound, as OBJECTS, and as TIMED counted from SINCE: each object
has to be the same, and to have its ms after SINCE as times of day too, which are added by Python's datetime.
scripts/tries/live and scripts/tries/received call it.
"""
import json
import sys
from datetime import datetime, timedelta

since = datetime.fromisoformat(sys.argv[1])
with open(sys.argv[2]) as plain, open(sys.argv[3]) as timed:
    objects, others = ([json.loads(line) for line in file] for file in (plain, timed))
if len(objects) != len(others):
    sys.exit(f"times.py: {len(objects)} objects, and {len(others)} with times of day")
for wanted, told in zip(objects, others):
    for name in ("from", "at", "to"):
        if f"{name}_ms" in wanted:
            text = told.get(name, "")
            if not text.endswith("Z"):
                sys.exit(f"times.py: {name} is not in UTC: {told}")
            head, dot, fraction = text[:-1].partition(".")
            at = datetime.fromisoformat(f"{head}.{fraction:0<6}+00:00" if dot else f"{head}+00:00")
            if at - since != timedelta(milliseconds=wanted[f"{name}_ms"]):
                sys.exit(f"times.py: {name} is another time: {told}")
            wanted[name] = text
    if wanted != told:
        sys.exit(f"times.py: {told} in place of {wanted}")
