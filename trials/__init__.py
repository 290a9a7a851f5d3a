"""The trials of the built program, each a module of tests; `trials/run` runs them."""

import sys

sys.dont_write_bytecode = True
