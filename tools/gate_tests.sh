#!/bin/sh
# Tests what make test and make prove run, and what they say: in a repository of one source, with a kit that builds a script and
# steps that only note that they ran. The last line is 'N passed, M failed'.
. tools/counting.sh
# What make test was told is not for the makes of this test.
unset MAKEFLAGS MFLAGS MAKELEVEL PROGRAM FULL SERVERS
out=$PWD/out/gate_tests
tree=$out/tree

make_tree() {
    rm -rf "$out"
    mkdir -p "$out/kit" "$out/none" "$tree/crates/si_audit/src" "$tree/crates/si_audit/out"
    cp -r tools Makefile "$tree"
    echo fn main >"$tree/crates/si_audit/src/main.rt"
    echo "si_audit: clap" >"$tree/crates.txt"
    : >"$tree/HANDLES"
    cat >"$out/kit/rt" <<'KIT'
#!/bin/sh
[ "$1" = version ] && echo a kit && exit
echo "$*" >>"${0%/kit/rt}/asked"
[ "$1" = "$REFUSED" ] && exit 1
[ "$1" = test ] && echo "test result: ok. 2 passed" && exit
if [ -d src ]; then
    mkdir -p out
    { echo '#!/bin/sh' && sed 's/^/# /' src/main.rt; } >out/si_audit
    chmod 755 out/si_audit
fi
KIT
    printf '#!/bin/sh\necho Linux x86_64\n' >"$out/kit/uname"
    cp "$out/kit/uname" "$out/none/uname"
    cat >"$out/step.sh" <<'STEP'
#!/bin/sh
word=passed
[ "$1" = "$FAILING" ] && word=FAILED
echo "$1 by $PROGRAM" >>ran
echo "x ... skipped 'left out: nothing to see'" >"out/steps/$1.log"
echo "$word 1 s $1" | tee "out/steps/$1.told"
exit
STEP
    # The names of the steps stand in what is left of it.
    cat "$out/step.sh" tools/step.sh >"$tree/tools/step.sh"
    chmod 755 "$out/kit"/* "$out/none"/*
}

# Commands without a kit, and with the one of this test.
without=$(echo "$PATH" | tr : '\n' | while read -r folder; do [ -x "$folder/rt" ] || echo "$folder"; done | paste -s -d : -)
bare=$out/none:$without
kit=$out/kit:$without

# makes NAME STATUS PATH WORDS..: make with these words and commands ends with this status.
makes() {
    name=$1
    wanted=$2
    commands=$3
    shift 3
    rm -f "$tree/ran" "$out/asked"
    : >"$out/asked"
    (cd "$tree" && PATH=$commands make "$@") >"$out/report" 2>"$out/said"
    status=$?
    count "$name: its status" "$([ "$status" = "$wanted" ] || echo "it is $status and not $wanted: $(cat "$out/said")")"
}

# says TEXT: the last make wrote a line that has the text.
says() {
    count "$name: it says '$1'" "$(grep -qF -- "$1" "$out/report" "$out/said" || cat "$out/report" "$out/said")"
}

# ends TEXT: the last line that the last make wrote is this one.
ends() {
    last=$(tail -n 1 "$out/report")
    count "$name: its last line" "$([ "$last" = "$1" ] || echo "it is '$last' and not '$1'")"
}

# asks WORDS: the kit was asked for just that.
asks() {
    asked=$(paste -s -d ' ' - <"$out/asked")
    count "$name: the kit" "$([ "$asked" = "$1" ] || echo "it was asked for '$asked' and not '$1'")"
}

# steps_with_kit COUNT: so many of the steps that run were the one that needs the kit.
steps_with_kit() {
    ran=$(grep -c '^witnesses by ' "$tree/ran")
    count "$name: the step that needs the kit" "$([ "$ran" = "$1" ] || echo "it ran $ran times and not $1")"
}

# tries PROGRAM: the steps that are there were run with this program.
tries() {
    count "$name: its program" "$([ -s "$tree/ran" ] && grep -v " by $1\$" "$tree/ran"; [ -s "$tree/ran" ] || echo "no step ran")"
}

make_tree
steps=$(sh tools/test.sh steps | wc -l)
makes "no kit, no program" 2 "$bare" test
asks ""
count "no kit, no program: one line" "$([ "$(grep -c '^make test: no program to test: ' "$out/said")" = 1 ] && [ ! -s "$out/report" ] || cat "$out/report" "$out/said")"
makes "a kit, no program" 0 "$kit" test
asks run
tries crates/si_audit/out/si_audit
ends "$((steps + 1)) passed, 0 failed"
echo fn more >>"$tree/crates/si_audit/src/main.rt"
makes "a build that fails" 2 "$kit" test REFUSED=run
says "si_audit was not built"
ends "0 passed, 1 failed"
makes "make release" 0 "$kit" release
makes "a kept program" 0 "$bare" test
asks ""
tries out/kept/si_audit
says "make prove"
says "make test FULL=1"
says "left out: nothing to see"
ends "$steps passed, 0 failed"
steps_with_kit 0
makes "a step that fails" 2 "$bare" test FAILING=links
says "FAILED 1 s links"
ends "$((steps - 1)) passed, 1 failed"
echo fn other >>"$tree/crates/si_audit/src/main.rt"
makes "another source, and no kit" 2 "$bare" test
says "it was made from other sources"
makes "another source, and a kit" 0 "$kit" test
asks run
makes "make prove" 0 "$kit" prove
asks "run test"
tries crates/si_audit/out/si_audit
ends "4 passed, 0 failed"
steps_with_kit 0
makes "the whole gate" 0 "$kit" test FULL=1
asks ci
ends "$((steps + 4)) passed, 0 failed"
steps_with_kit 1
says "make witnesses ALL=1"
echo fn last >>"$tree/crates/si_audit/src/main.rt"
makes "the whole gate, and no program" 0 "$kit" test FULL=1
asks "ci run"
makes "a proof that fails" 2 "$kit" test FULL=1 REFUSED=ci
says "FAILED"
ends "0 passed, 1 failed"
count "a proof that fails: the steps" "$([ ! -e "$tree/ran" ] || cat "$tree/ran")"
makes "FULL=2" 2 "$kit" test FULL=2
says "make test: FULL is 1, or isn't given"

rm -rf "$out"
finish
