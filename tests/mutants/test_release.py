"""The planted bugs of tests/mutants/release; mutants.py says how they are tried."""

from mutants import load

load_tests = load("release")
