#!/bin/sh
# Removes what the manifests under DESTDIR and PREFIX name (tools/installing.sh), as it was installed, and nothing else. What
# somebody has changed since stays. Directories of share/si_audit go where they are empty then, and no others.
. tools/installing.sh

# remove_folders PATH: removes the folders of a path that are share/si_audit or within it, from the last, while they are empty.
remove_folders() {
    folder=$(dirname "$1")
    while case $folder in share/si_audit | share/si_audit/*) true ;; *) false ;; esac do
        rmdir "$prefix/$folder/__pycache__" 2>/dev/null
        rmdir "$prefix/$folder" 2>/dev/null || return 0
        folder=$(dirname "$folder")
    done
}

# remove PATH: removes the file that the manifest names, unless it is another by now.
remove() {
    case /$1/ in
        */../* | //*) fail "$manifest names $1, which no make install has put there" ;;
    esac
    if is_named "$1"; then
        rm -f "$prefix/$1" || exit 1
        removed=$((removed + 1))
        without_cache "$1"
    elif [ -e "$prefix/$1" ] || [ -L "$prefix/$1" ]; then
        printf 'make uninstall: leaving %s, which make install has not put there as it is\n' "$prefix/$1" >&2
    fi
}

found=
for name in si_audit si-history; do
    manifest=$share/$name.manifest
    [ -f "$manifest" ] || continue
    found=yes
    removed=0
    paths=$(named | sed 's/^[^ ]*  //' | LC_ALL=C sort -u)
    while read -r path; do
        remove "$path"
    done <<PATHS
$paths
PATHS
    rm -f "$manifest" || exit 1
    while read -r path; do
        remove_folders "$path"
    done <<PATHS
$paths
share/si_audit/manifest
PATHS
    echo "make uninstall: removed the $removed files of $name from $prefix"
done
if [ -z "$found" ]; then
    echo "make uninstall: no make install has left a manifest in $share, so nothing is removed"
fi
