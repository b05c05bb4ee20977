"""Compacts a RINEX file into memory, expands that again, and says whether the file came back, or its normal form, as a file does that isn't
standard: compact.py FILE"""

import sys
from pathlib import Path

import rnxcmp


def main(name: str) -> int:
    file = Path(name).read_bytes()
    try:
        compact = rnxcmp.rnx2crx(file, date="01-Jan-24 00:00")
    except rnxcmp.RnxcmpError as fault:
        print(f"{name}: {fault}", file=sys.stderr)
        return 1
    same = rnxcmp.crx2rnx(compact) == file
    print(f"{len(file)} bytes, compact {len(compact)}: {'the same again' if same else 'its normal form'}")
    return 0


if __name__ == "__main__":
    sys.exit(main(sys.argv[1]))
