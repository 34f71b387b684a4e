"""The tests: `python3 -m tests`."""

import sys

sys.dont_write_bytecode = True
