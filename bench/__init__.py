"""What the built program takes: `python3 -m bench`."""

import sys

sys.dont_write_bytecode = True
