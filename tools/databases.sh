#!/bin/sh
# Records and audits real databases, and prints a table: sh tools/databases.sh [RUNS]. What it needs is installed by
# tools/install_databases.sh. PYTHON is the Python that has the drivers: Debian's drivers are those of /usr/bin/python3.
: "${PYTHON:=/usr/bin/python3}"

if ! command -v "$PYTHON" >/dev/null; then
    echo "make databases: there is no Python at $PYTHON; say, for example, make databases PYTHON=python3" >&2
    exit 2
fi
program=$(sh tools/program.sh) || exit 1
export PYTHONDONTWRITEBYTECODE=1 PYTHONPATH=companion
exec "$PYTHON" tools/databases.py "$program" "${1:-20}"
