#!/bin/sh
# Installs the program as bin/si_audit, with its man page and completion, and the command si-history. tools/uninstall.sh removes
# the same. What is there already stays until all that takes its place is written.
. tools/installing.sh
program=$(sh tools/program.sh) || exit 1
begin si_audit
stage "$program" bin/si_audit 755
stage docs/si_audit.1 share/man/man1/si_audit.1 644
stage packaging/si_audit.bash share/bash-completion/completions/si_audit 644
place_all
echo "make install: $prefix/bin/si_audit"
sh tools/install_companion.sh
