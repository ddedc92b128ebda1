#!/bin/sh
# Runs the tests of crates: sh tools/crate_tests.sh [CRATE..], and of all crates where none is named. The kit proves what
# isn't proved yet. What it says is kept in out/CRATE.log, and shown where it fails. The last line is 'N passed, M failed'.
mkdir -p out
passed=0
failed=0

if [ $# = 0 ]; then
    # shellcheck disable=SC2046 # the names of crates are words
    set -- $(sed -n 's/^\([a-z][a-z0-9_]*\)[ :].*/\1/p' crates.txt)
fi
for name; do
    log=$PWD/out/$name.log
    began=$(date +%s)
    (cd "crates/$name" && rt test) >"$log" 2>&1
    status=$?
    took=$(($(date +%s) - began))
    found=$(sed -n 's/^test result: ok\. \([0-9]*\) passed.*/\1/p' "$log")
    if [ "$status" = 0 ]; then
        passed=$((passed + ${found:-0}))
        echo "$name: ${found:-0} tests passed, $took s"
    else
        failed=$((failed + 1))
        tail -n 30 "$log"
        echo "$name: not proved, or a test failed; the whole log is out/$name.log"
    fi
done
echo "$passed passed, $failed failed"
[ "$failed" = 0 ]
