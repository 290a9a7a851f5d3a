"""Runs the desk as `python3 -m vaultdesk`."""

import sys

from vaultdesk.cli import main

sys.exit(main())
