"""RocksDB's interface for C, called through ctypes, since Debian has no Python driver for it."""

from __future__ import annotations

import ctypes
import re
from ctypes import c_char_p, c_int64, c_size_t, c_ubyte, c_void_p
from pathlib import Path
from typing import Any

from si_history.record.model import Aborted, StoreFault
from si_history.record.server import INSTALL

TITLE = "RocksDB"
LIBRARIES = ("librocksdb.so.7.8", "librocksdb.so.8.9", "librocksdb.so")
# What the library says of a statement that is refused for another transaction's sake begins with one of these.
ENDING = ("Resource busy", "Operation timed out", "Operation expired", "Operation aborted")

# What the library gives out to be given back to it, or nothing.
Handle = int | None

_P, _S, _N = c_void_p, c_char_p, c_size_t
# The functions: what each answers, and what it takes.
_FUNCTIONS: dict[str, tuple[Any, list[Any]]] = {
    "options_create": (_P, []),
    "options_set_create_if_missing": (None, [_P, c_ubyte]),
    "writeoptions_create": (_P, []),
    "readoptions_create": (_P, []),
    "readoptions_set_snapshot": (None, [_P, _P]),
    "readoptions_destroy": (None, [_P]),
    "optimistictransactiondb_open": (_P, [_P, _S, _P]),
    "optimistictransactiondb_close": (None, [_P]),
    "optimistictransaction_options_create": (_P, []),
    "optimistictransaction_options_set_set_snapshot": (None, [_P, c_ubyte]),
    "optimistictransaction_begin": (_P, [_P, _P, _P, _P]),
    "transactiondb_options_create": (_P, []),
    "transactiondb_open": (_P, [_P, _P, _S, _P]),
    "transactiondb_close": (None, [_P]),
    "transaction_options_create": (_P, []),
    "transaction_options_set_set_snapshot": (None, [_P, c_ubyte]),
    "transaction_options_set_lock_timeout": (None, [_P, c_int64]),
    "transaction_begin": (_P, [_P, _P, _P, _P]),
    "transaction_get_snapshot": (_P, [_P]),
    "transaction_commit": (None, [_P, _P]),
    "transaction_rollback": (None, [_P, _P]),
    "transaction_destroy": (None, [_P]),
    "transaction_get": (_P, [_P, _P, _S, _N, _P, _P]),
    "transaction_get_for_update": (_P, [_P, _P, _S, _N, _P, c_ubyte, _P]),
    "transaction_put": (None, [_P, _S, _N, _S, _N, _P]),
    "transaction_create_iterator": (_P, [_P, _P]),
    "iter_seek": (None, [_P, _S, _N]),
    "iter_valid": (c_ubyte, [_P]),
    "iter_next": (None, [_P]),
    "iter_key": (_P, [_P, _P]),
    "iter_value": (_P, [_P, _P]),
    "iter_get_error": (None, [_P, _P]),
    "iter_destroy": (None, [_P]),
    "free": (None, [_P]),
}


class Client:
    """The library."""

    def __init__(self) -> None:
        library = _loaded()
        self._functions: dict[str, Any] = {}
        for name, (answer, takes) in _FUNCTIONS.items():
            function = getattr(library, f"rocksdb_{name}")
            function.restype, function.argtypes = answer, takes
            self._functions[name] = function

    def version(self) -> str:
        """The version that the name of the library's file tells."""
        found = re.search(r"librocksdb\.so\.([0-9.]+)\n", Path("/proc/self/maps").read_text())
        return found[1] if found else "of an unknown version"

    def call(self, name: str, *words: object) -> Any:
        """Calls a function that can't fail."""
        return self._functions[name](*words)

    def tried(self, name: str, *words: object) -> Any:
        """Calls a function that may fail, with one argument more for what it says then. Raises Aborted or StoreFault."""
        said = c_void_p(None)
        answer = self._functions[name](*words, ctypes.byref(said))
        if said.value is not None:
            text = ctypes.string_at(said.value).decode(errors="replace").strip()
            self.call("free", said)
            raise Aborted(f"{TITLE}: {text}") if text.startswith(ENDING) else StoreFault(f"{TITLE}: {text}")
        return answer

    def taken(self, place: Handle, length: int) -> bytes | None:
        """The bytes that the library has given out, which it then has back."""
        if place is None:
            return None
        content = ctypes.string_at(place, length)
        self.call("free", place)
        return content

    def pairs(self, transaction: Handle, read_options: Handle, low: bytes, high: bytes) -> list[tuple[bytes, bytes]]:
        """All keys from `low` to `high` with their values, by an iterator of the transaction."""
        iterator, found, length = self.call("transaction_create_iterator", transaction, read_options), [], c_size_t()
        try:
            self.call("iter_seek", iterator, low, len(low))
            while self.call("iter_valid", iterator):
                key = ctypes.string_at(self.call("iter_key", iterator, ctypes.byref(length)), length.value)
                if key > high:
                    break
                value = ctypes.string_at(self.call("iter_value", iterator, ctypes.byref(length)), length.value)
                found.append((key, value))
                self.call("iter_next", iterator)
            self.tried("iter_get_error", iterator)
        finally:
            self.call("iter_destroy", iterator)
        return found


def _loaded() -> ctypes.CDLL:
    """The library. Raises StoreFault where there is none."""
    for name in LIBRARIES:
        try:
            return ctypes.CDLL(name)
        except OSError:
            continue
    raise StoreFault(f"no {TITLE} was found (there is no library {LIBRARIES[0]}): {INSTALL}")
