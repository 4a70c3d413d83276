"""Prints, for each crate of this repository, its name and the sum of all that its library is made from: usage: stamps.py KIT.

By this sum the kit tells whether a library that stands in a crate's out/ is that of the text. Its gate leaves none, so
that no other command trusts what a gate made; ./check does, for what it calls after the gate that passed.
"""
import os
import sys

sys.dont_write_bytecode = True
sys.path.insert(0, f"{sys.argv[1]}/bin")
import rtlib

for crate in rtlib.crates_below(os.getcwd()):
    if crate.makes_rlib():
        print(crate.name, crate.stamp())
