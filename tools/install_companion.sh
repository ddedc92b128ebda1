#!/bin/sh
# Installs the command si-history as bin/si-history, with its man page and completions, and its Python package under
# share/si_audit.
. tools/installing.sh
files=$(cd companion && find si_history -name __pycache__ -prune -o -type f -print | LC_ALL=C sort) || fail "there is no companion/si_history"
begin si-history
while read -r file; do
    stage "companion/$file" "share/si_audit/$file" 644
done <<FILES
$files
FILES
stage docs/si-history.1 share/man/man1/si-history.1 644
stage companion/si_history/completion.bash share/bash-completion/completions/si-history 644
stage companion/si_history/completion.zsh share/zsh/site-functions/_si-history 644
stage companion/si-history bin/si-history 755
place_all
echo "make install: $prefix/bin/si-history"
