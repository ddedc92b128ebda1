#!/bin/sh
# Prints the path of a program made from the sources at hand: the one that is kept in release/, where it fits; else the one that
# is proved and built here. No other program is taken, whatever the environment names.
kept=$(sh tools/release.sh program)
if [ -n "$kept" ]; then
    echo "make: taking $kept, which was proved and built from these sources (make build proves it here)" >&2
    echo "$kept"
    exit
fi
sh tools/build.sh && echo crates/si_audit/out/si_audit
