"""Runs the command line: python3 -m si_history COMMAND .."""

import sys

from si_history import startup

startup.prepare()

from si_history.cli import main  # noqa: E402 - an interrupt while it loads ends the process without a traceback

sys.exit(main())
