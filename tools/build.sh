#!/bin/sh
# Builds the program, where it isn't the one that was built here last or a source has changed since: sh tools/build.sh. With
# the word `always` the kit is asked in any case: sh tools/build.sh always. The kit proves the program before it builds it.
# What counts are the hashes of the program and of the sources, which are kept in out/made_from, and no dates.
program=crates/si_audit/out/si_audit
made_from=out/made_from
log=out/build.log

# The hashes of the program and of the sources at hand. It fails where they can't be told.
hashes() {
    sh tools/sha256.sh "$program" && sh tools/release.sh sources
}

mkdir -p out
if [ "$1" != always ] && [ -x "$program" ] && [ -f "$made_from" ] && now=$(hashes) && [ "$now" = "$(cat "$made_from")" ]; then
    exit 0
fi
sh tools/kit.sh || exit 1
rm -f "$made_from"
before=$(sh tools/release.sh sources) || before=
echo "make: proving and building si_audit, which takes some minutes from nothing" >&2
# The kit builds a program by running it: here on the empty text.
if (cd crates/si_audit && rt run </dev/null) >"$log" 2>&1; then
    if [ -n "$before" ]; then
        { sh tools/sha256.sh "$program" && echo "$before"; } >"$made_from" || rm -f "$made_from"
    fi
else
    tail -n 15 "$log" >&2
    echo "make: si_audit was not built (the whole log is $log)" >&2
    exit 1
fi
