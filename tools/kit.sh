#!/bin/sh
# Tells in one line where the kit is missing.
if ! command -v rt >/dev/null 2>&1; then
    echo "make: the Rattle kit is missing: there is no command rt on the PATH (README.md, \"Two commands\")" >&2
    exit 1
fi
