"""Tests of si_history."""

import signal

# What a shell runs in the background ignores interrupts, and so do the commands that the tests start and interrupt, but for this.
signal.signal(signal.SIGINT, signal.default_int_handler)
