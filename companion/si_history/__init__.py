"""Turns a store's log into a history for si_audit, and its report into names and pictures. It proves and judges nothing."""

__version__ = "0.2.0"
