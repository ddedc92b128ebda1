#!/bin/sh
# Runs one step of make test: sh tools/step.sh NAME. PROGRAM is the program that it tries. What the step writes is kept in
# out/steps/NAME.log, and shown where it fails. out/steps/NAME.told gets the line that tells what came of it. tools/test.sh runs
# the steps in the order in which they stand here.
: "${PROGRAM:=crates/si_audit/out/si_audit}"
export PROGRAM
name=$1

# The modules of tools/ import each other by their own names.
modules() {
    PYTHONPATH=tools python3 -B -m "$@"
}

case $name in
    witnesses)
        what="five wrong edits, other ones for each commit, answer to their witnesses as the ledger has it"
        set -- env PYTHONPATH=tools nice -n 10 python3 -B -m witnesses try "$PROGRAM" 5
        ;;
    texts)
        what="the program on 20,000 texts that nobody means"
        set -- modules fuzz_texts "$PROGRAM"
        ;;
    random)
        what="the program beside the definitions, on random histories"
        set -- modules oracle "$PROGRAM" small=1000 crowd=60 versions=30 ranges=24 rings=20 edges=12 most_edges=6
        ;;
    companion1 | companion2 | companion3 | companion4)
        what="the companion: logs in, names and pages out (${name#companion} of 4)"
        set -- sh tools/companion_tests.sh "${name#companion}/4"
        ;;
    limits)
        what="the program on the longest texts and on hard ones, each within some seconds"
        set -- python3 -B tools/limits.py "$PROGRAM"
        ;;
    long)
        what="the program on a million events, beside what was planted in them"
        set -- python3 -B tools/long_texts.py "$PROGRAM"
        ;;
    shortage)
        what="the program with half the memory that it needs"
        set -- python3 -B tools/shortage.py "$PROGRAM"
        ;;
    planting)
        what="what is planted in long histories, by the definitions"
        set -- modules unittest -q long_histories_tests
        ;;
    logs)
        what="the companion on 2,000 logs that nobody means"
        set -- env PYTHONPATH=tools:companion python3 -B -m fuzz_logs "$PROGRAM"
        ;;
    refusals)
        what="the program without memory, and without threads"
        set -- python3 -B tools/refusals.py "$PROGRAM"
        ;;
    definitions)
        what="the definitions in Python, on what docs/FORMAT.md works out"
        set -- modules unittest -q oracle.tests
        ;;
    packages)
        what="the packages: the companion's wheel, and the Debian package"
        set -- sh tools/package_tests.sh
        ;;
    taken)
        what="which program is taken"
        set -- sh tools/kept_tests.sh
        ;;
    gate)
        what="what make test and make prove run, and what they say"
        set -- sh tools/gate_tests.sh
        ;;
    installed)
        what="what is installed and removed"
        set -- sh tools/install_tests.sh
        ;;
    targets)
        what="the targets of the Makefile for users"
        set -- sh tools/make_tests.sh
        ;;
    scripts)
        what="the scripts"
        set -- sh tools/shell_tests.sh
        ;;
    trying)
        what="what tries the witnesses of the wrong edits"
        set -- modules unittest -q witnesses.tests
        ;;
    ledger)
        what="the ledger of the wrong edits' witnesses is of the edits, files and program at hand"
        set -- modules witnesses check "$PROGRAM"
        ;;
    lines)
        what="the program on command lines, and with devices that fail"
        set -- sh tools/line_tests.sh
        ;;
    examples)
        what="the program on every example"
        set -- sh tools/examples.sh
        ;;
    links)
        what="the links of the pages, and their numbers of words"
        set -- python3 -B tools/links.py
        ;;
    bodies)
        what="the list of wrong bodies is that of the edits"
        set -- python3 -B tools/wrong_bodies.py --check
        ;;
    growths)
        what="the crates' own tests without memory"
        set -- python3 -B tools/growths.py crates/*/out/*_tests
        ;;
    kept)
        what="the program that release/ keeps"
        set -- sh tools/release.sh compare
        ;;
    *)
        echo "step.sh: there is no step $name" >&2
        exit 2
        ;;
esac

log=out/steps/$name.log
began=$(date +%s)
if "$@" >"$log" 2>&1; then
    word=passed
else
    word=FAILED
    cat "$log"
fi
printf '%s %6d s  %s\n' "$word" $(($(date +%s) - began)) "$what" | tee "out/steps/$name.told"
