"""The planted bugs of tests/mutants/explain; mutants.py says how they are tried."""

from mutants import load

load_tests = load("explain")
