#!/bin/sh
# Runs the tests of the Python package in companion/, beside the program: sh tools/companion_tests.sh [SHARE/SHARES], and all of
# them where no share is named.
: "${PROGRAM:=crates/si_audit/out/si_audit}"
export PROGRAM
if [ ! -x "$PROGRAM" ]; then
    echo "there is no program $PROGRAM" >&2
    exit 1
fi
PYTHONPATH=companion python3 -B -m tests "$@"
