#!/bin/sh
# What the scripts of tests have in common: each reads this file with `.`, counts its tests, and ends with `finish`.
passed=0
failed=0

# count NAME WHY: the test passed where there is no WHY.
count() {
    if [ -z "$2" ]; then
        passed=$((passed + 1))
    else
        failed=$((failed + 1))
        printf '%s: %s\n' "$1" "$2"
    fi
}

# Tells what came of the tests. The last line is 'N passed, M failed', and the status 0 where none failed.
finish() {
    echo "$passed passed, $failed failed"
    [ "$failed" = 0 ]
}
