"""`python3 -m rnxcmp` is rnxcmp-file."""

import sys

from .files import main

sys.exit(main())
