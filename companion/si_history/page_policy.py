"""A page's Content-Security-Policy: what a browser may use is what the page holds, known by hash, and nothing else."""

from __future__ import annotations

import base64
import hashlib
import re

_HELD = re.compile(r"<(style|script)\b[^>]*>(.*?)</\1>", re.DOTALL)
_FIRST = '<meta charset="utf-8">\n'


def with_policy(document: str) -> str:
    """The document with its policy, which stands before all that it is about.

    Names in a document are escaped, so what looks like a style or a script there is one.
    """
    hashes: dict[str, list[str]] = {"style": [], "script": []}
    for kind, content in _HELD.findall(document):
        hashes[kind].append(f"'sha256-{base64.b64encode(hashlib.sha256(content.encode()).digest()).decode()}'")
    allowed = "; ".join(f"{kind}-src {' '.join(found)}" for kind, found in hashes.items() if found)
    policy = f"default-src 'none'; {allowed}; base-uri 'none'; form-action 'none'"
    return document.replace(_FIRST, f'{_FIRST}<meta http-equiv="Content-Security-Policy" content="{policy}">\n', 1)
