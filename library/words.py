#!/usr/bin/env python3
"""Writes the words of all faults as lines of a C array, by their numbers: words.py crates/crx_base/src/fault.rt > words.inc"""

import re
import sys
from pathlib import Path


def words_of(source):
    """The words by number; 0 has none."""
    codes = {name: int(number) for name, number in re.findall(r"Fault::(\w+) => (\d+),", source)}
    words = {codes[name]: text for name, text in re.findall(r'Fault::(\w+) => "([^"]*)",', source)}
    if sorted(words) != list(range(1, len(codes) + 1)):
        sys.exit("the faults' numbers and words don't go together")
    return [""] + [words[number] for number in sorted(words)]


if __name__ == "__main__":
    for text in words_of(Path(sys.argv[1]).read_text(encoding="utf-8")):
        print(f'    "{text}",')
