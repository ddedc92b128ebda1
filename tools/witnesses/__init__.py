"""Sees that each wrong edit answers otherwise than the code that it edits, on an input of its own: its witness.

What a witness is and how it is written says witnesses/README.md. The command line is that of __main__.py.
"""
