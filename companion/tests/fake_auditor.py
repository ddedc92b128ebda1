"""Programs that stand for an auditor in tests: shell scripts that end as a test wants."""

from __future__ import annotations

from pathlib import Path

VERSION = "si_audit 0.2.0 (Rattle logic 0123456789abcdef)"


def fake_auditor(directory: str | Path, body: str, version: str = f'echo "{VERSION}"', name: str = "si_audit") -> str:
    """The path of a script that runs `version` where it is asked for its version, and else `body`."""
    path = Path(directory) / name
    path.write_text(f'#!/bin/sh\nif [ "$1" = --version ]; then\n{version}\nexit\nfi\n{body}\n')
    path.chmod(0o755)
    return str(path)
