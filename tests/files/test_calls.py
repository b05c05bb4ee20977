"""rnxcmp-file and the calls from Python: options, with what they print and make, and the promises while files change."""

from place import checked

checks = checked("options", "promises")
