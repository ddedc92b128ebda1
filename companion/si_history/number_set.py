"""A set of whole numbers that takes a bit for each where they are near each other."""

from __future__ import annotations

BITS_OF_BLOCK = 12
BYTES_OF_BLOCK = 1 << (BITS_OF_BLOCK - 3)
IN_BLOCK = (1 << BITS_OF_BLOCK) - 1


class NumberSet:
    """Numbers from 0 on."""

    def __init__(self) -> None:
        self._blocks: dict[int, bytearray] = {}

    def add(self, number: int) -> None:
        """Adds a number."""
        block = self._blocks.get(number >> BITS_OF_BLOCK)
        if block is None:
            block = self._blocks[number >> BITS_OF_BLOCK] = bytearray(BYTES_OF_BLOCK)
        block[(number & IN_BLOCK) >> 3] |= 1 << (number & 7)

    def __contains__(self, number: int) -> bool:
        block = self._blocks.get(number >> BITS_OF_BLOCK)
        return block is not None and bool(block[(number & IN_BLOCK) >> 3] >> (number & 7) & 1)
