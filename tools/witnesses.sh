#!/bin/sh
# Tries the witnesses of the wrong edits that the ledger lacks, or those whose edit, source or input has changed since; with ALL=1
# all of them: sh tools/witnesses.sh. witnesses/README.md says what a witness is.
sh tools/kit.sh || exit 1
program=$(sh tools/program.sh) || exit 1
case ${ALL:-0} in
    0) set -- ;;
    1) set -- all ;;
    *)
        echo "make witnesses: ALL is 1, or isn't given" >&2
        exit 2
        ;;
esac
PYTHONPATH=tools exec nice -n 10 python3 -B -m witnesses make "$program" "$@"
