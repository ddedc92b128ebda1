#!/bin/sh
# Times the program on generated histories, and prints two tables: of histories of many kinds, and of longer and longer ones. KEEP, if
# it isn't empty, keeps the figures of the first in tools/bench_figures.txt, from which the next run tells the change. LONG asks for
# the longest ones.
if ! command -v python3 >/dev/null 2>&1; then
    echo "make bench: there is no python3 on the PATH, which makes the histories" >&2
    exit 1
fi
program=$(sh tools/program.sh) || exit 1
python3 -B tools/bench.py "$program" ${KEEP:+--keep} && python3 -B tools/growth.py "$program" ${LONG:+--long}
