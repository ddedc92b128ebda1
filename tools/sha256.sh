#!/bin/sh
# Prints the SHA-256 of files, or of standard input, as sha256sum does: sh tools/sha256.sh [FILE..].
if command -v sha256sum >/dev/null 2>&1; then
    exec sha256sum -- "$@"
elif command -v shasum >/dev/null 2>&1; then
    exec shasum -a 256 -- "$@"
fi
echo "make: there is no sha256sum and no shasum on the PATH" >&2
exit 1
