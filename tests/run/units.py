#!/usr/bin/python3
"""Runs the unit tests of the tools, tests/units/, which take a second and need no program.

    tests/run/units.py [WORD..]     WORD.. as `python3 -m unittest discover` takes them

Tests of what counts with numpy (apt-get install python3-numpy) are skipped where it is missing.
Ends with status 1 if a test failed.
"""
import os
import sys
import unittest

sys.dont_write_bytecode = True
TOP = os.path.dirname(os.path.dirname(os.path.dirname(os.path.abspath(__file__))))
UNITS = os.path.join(TOP, "tests", "units")

if __name__ == "__main__":
    sys.path[:0] = [os.path.join(TOP, "tools"), UNITS]
    unittest.main(module=None, argv=[sys.argv[0], "discover", "-s", UNITS, *sys.argv[1:]])
