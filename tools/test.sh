#!/bin/sh
# Tests the repository, by the steps of tools/step.sh.
#   sh tools/test.sh         what needs no proof, on the program that release/ keeps, where it was made from the sources at hand.
#                            Where it wasn't, the kit proves and builds the program first
#   sh tools/test.sh prove   the kit proves what isn't proved yet and builds the program; then the crates' own tests
#   sh tools/test.sh steps   tells the names of the steps that make test runs
#   FULL=1 sh tools/test.sh  the whole gate: the kit proves all from nothing and tries the edits that it must refuse; then all
#                            steps, on the program that it built, and five of those edits on their witnesses
# The lines before the last one say what was not tested, and what tests it. The last line counts the steps.

# The names of the steps, in their order, those that are about what the kit left, and the one that runs the kit.
steps=$(sed -n 's/^    \([a-z][a-z0-9 |]*\))$/\1/p' tools/step.sh | tr -d ' ' | tr '|' '\n' | grep -vx -e kept -e growths -e witnesses)
proof_steps="kept growths"
kit_steps=witnesses
built=crates/si_audit/out/si_audit
passed=0
failed=0

# first WHAT COMMAND..: a step that the others need. What it writes is shown as it comes. Where it fails nothing else is run.
first() {
    what=$1
    shift
    echo "== $what"
    began=$(date +%s)
    if "$@"; then
        passed=$((passed + 1))
        printf 'passed %6d s  %s\n' $(($(date +%s) - began)) "$what"
    else
        failed=$((failed + 1))
        printf 'FAILED %6d s  %s\n' $(($(date +%s) - began)) "$what"
        finish
    fi
}

# others NAME..: these steps, as many side by side as there are processors.
others() {
    rm -rf out/steps
    mkdir -p out/steps
    printf '%s\n' "$@" | xargs -n 1 -P "$(getconf _NPROCESSORS_ONLN 2>/dev/null || echo 2)" sh tools/step.sh
    for name; do
        case $(cat "out/steps/$name.told" 2>/dev/null) in
            passed*) passed=$((passed + 1)) ;;
            *) failed=$((failed + 1)) ;;
        esac
    done
}

# Tells what came of the steps, what they left out, and what isn't among them. The status is 0 where all passed.
finish() {
    echo "== what was not tested"
    cat out/steps/*.log 2>/dev/null | sed -n "s/.*\(left out: [^'\"]*\).*/\1/p" | sort -u
    case $mode in
        fast)
            echo "the proofs, and the crates' own tests: make prove, which needs the Rattle kit"
            echo "the wrong edits, which the prover must refuse, and all proofs from nothing: make test FULL=1, which needs it too"
            ;;
        prove)
            echo "the program and the companion: make test"
            echo "the wrong edits, which the prover must refuse, and all proofs from nothing: make test FULL=1"
            ;;
        full)
            echo "the wrong edits on their witnesses, but for five: make witnesses ALL=1"
            ;;
    esac
    if [ "$mode" != prove ] && [ -z "$SERVERS" ]; then
        echo "the recorder with the databases that are installed: make test SERVERS=1"
    fi
    echo "$passed passed, $failed failed"
    [ "$failed" = 0 ]
    exit
}

# The program to try without a proof. It is copied, so that its own lines name it si_audit.
take_kept() {
    rm -rf out/kept
    mkdir -p out/kept
    cp "$1" out/kept/si_audit || exit 1
    PROGRAM=out/kept/si_audit
}

# Takes the kept program; or the kit proves and builds one.
find_program() {
    kept=$(sh tools/release.sh program 2>out/why)
    if [ -n "$kept" ]; then
        echo "the program is $kept, which was proved and built from these sources"
        take_kept "$kept"
    elif command -v rt >/dev/null 2>&1; then
        cat out/why
        PROGRAM=$built
        first "every function is proved to meet its contract, and the program is built" sh tools/build.sh
    else
        why=$(head -n 1 out/why)
        echo "make test: no program to test: ${why#make: }, and no kit to prove and build one: there is no command rt on the PATH" >&2
        exit 1
    fi
}

# The kit's gate. The targets of the Makefile that are tested then find a program of these sources.
prove_all() {
    rt ci && { [ -n "$(sh tools/release.sh program 2>/dev/null)" ] || sh tools/build.sh; }
}

case ${1:-test}${FULL:-0} in
    test0) mode=fast ;;
    test1) mode=full ;;
    prove*) mode=prove ;;
    steps*)
        echo "$steps"
        exit
        ;;
    *)
        echo "make test: FULL is 1, or isn't given" >&2
        exit 2
        ;;
esac
rm -rf out/steps
mkdir -p out
case $mode in
    fast)
        find_program
        export PROGRAM
        # shellcheck disable=SC2086 # the names are words
        others $steps
        ;;
    prove)
        sh tools/kit.sh || exit 1
        export PROGRAM="$built"
        first "every function is proved to meet its contract, and the program is built" sh tools/build.sh always
        first "the crates' own tests" sh tools/crate_tests.sh
        # shellcheck disable=SC2086
        others $proof_steps
        ;;
    full)
        sh tools/kit.sh || exit 1
        export PROGRAM="$built"
        first "all is proved from nothing, the prover refuses each wrong edit, and the crates' own tests" prove_all
        # shellcheck disable=SC2086
        others $kit_steps $steps $proof_steps
        ;;
esac
finish
