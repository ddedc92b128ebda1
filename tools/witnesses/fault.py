"""What keeps a witness from being tried."""


class Fault(Exception):
    """Its text is one line for the reader."""
