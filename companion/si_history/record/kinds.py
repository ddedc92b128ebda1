"""The kinds of stores that the recorder runs in a folder of its own."""

from __future__ import annotations

from si_history.record import berkeley, derby, firebird, h2, hsqldb, lmdb, myrocks, rocksdb, sqlite
from si_history.record.local import Kind

KINDS: tuple[Kind, ...] = (
    sqlite.KIND, lmdb.KIND, berkeley.KIND, h2.KIND, hsqldb.KIND, firebird.KIND, derby.KIND, rocksdb.KIND,
    myrocks.KIND)
