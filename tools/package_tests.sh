#!/bin/sh
# Tests the packages: the companion as pip installs it from its folder and from a wheel, without a network, and the Debian package,
# installed in a root of its own and removed. The last line is 'N passed, M failed'.
# dpkg asks for programs that stand where only root's PATH leads.
PATH=$PATH:/usr/sbin:/sbin
export PATH
. tools/counting.sh
out=$PWD/out/package_tests
rm -rf "$out"
mkdir -p "$out"

# runs NAME SI_HISTORY: this si-history makes of the log of an example its history, and a page of that and its report.
runs() {
    "$2" from-transactions --legend "$out/legend" examples/logs/shop.transactions.jsonl >"$out/history" 2>"$out/said"
    count "$1: from-transactions" "$(cmp examples/logs/shop.history "$out/history" 2>&1 && cat "$out/said")"
    "$2" page --legend "$out/legend" "$out/history" examples/logs/shop.report >"$out/page" 2>"$out/said"
    count "$1: page" "$(grep -q "<style>" "$out/page" || echo "it has no style"; cat "$out/said")"
}

# python_with MODULE..: prints a Python that has these.
python_with() {
    for python in python3 /usr/bin/python3; do
        if "$python" -c "import sys; assert sys.version_info >= (3, 11)
for name in sys.argv[1:]: __import__(name)" "$@" 2>/dev/null; then
            echo "$python"
            return
        fi
    done
}

# pip ENVIRONMENT ARGUMENTS..: what pip says, if it fails. It asks no network.
pip() {
    "$out/$1/bin/python" -m pip --disable-pip-version-check --no-input --no-cache-dir "$2" --no-index --no-deps --quiet "$3" \
        ${4:+"$4"} ${5:+"$5"} >"$out/said" 2>&1 || cat "$out/said"
}

test_companion() {
    python=$(python_with setuptools wheel pip venv ensurepip)
    if [ -z "$python" ]; then
        echo "left out: no Python 3.11 here has setuptools, wheel, pip and venv"
        return
    fi
    # pip writes beside what it builds.
    cp -R companion "$out/companion"
    find "$out/companion" -name __pycache__ -prune -exec rm -rf {} +
    "$python" -m venv --system-site-packages "$out/of_folder" && "$python" -m venv "$out/of_wheel" || count "venv" "it fails"
    count "pip install of the folder" "$(pip of_folder install --no-build-isolation "$out/companion")"
    runs "pip install of the folder" "$out/of_folder/bin/si-history"
    mkdir "$out/wheels"
    count "pip wheel" "$(pip of_folder wheel --no-build-isolation --wheel-dir="$out/wheels" "$out/companion")"
    count "pip install of the wheel" "$(pip of_wheel install "$out"/wheels/*.whl)"
    runs "pip install of the wheel" "$out/of_wheel/bin/si-history"
    (cd companion && find si_history -name __pycache__ -prune -o -type f -print) | sort >"$out/files"
    "$python" -m zipfile --list "$out"/wheels/*.whl | sed -n 's/^\(si_history\/[^ ]*\) .*/\1/p' | sort >"$out/packed"
    count "the files of the wheel" "$(diff "$out/files" "$out/packed")"
    version=$("$out/of_wheel/bin/si-history" --version 2>&1)
    count "the version" "$([ "$version" = "$(PYTHONPATH=companion "$python" -B -m si_history --version)" ] || echo "it is $version")"
}

# completes NAME WANTED WORDS..: bash completes the last of the words to WANTED.
completes() {
    name=$1
    wanted=$2
    shift 2
    # shellcheck disable=SC2016 # bash reads it
    told=$(PATH=$root/usr/bin:$PATH bash -c 'source "$0"; COMP_WORDS=("$@"); COMP_CWORD=$(($# - 1))
        "$(complete -p "$1" | sed "s/.*-F \([^ ]*\) .*/\1/")"; echo "${COMPREPLY[*]}"' \
        "$root/usr/share/bash-completion/completions/$1" "$@" 2>&1)
    count "$name" "$([ "$told" = "$wanted" ] || echo "it is '$told' and not '$wanted'")"
}

# dpkg_in ARGUMENTS..: what dpkg says of the root, if it fails.
dpkg_in() {
    dpkg --root="$root" --force-depends --force-script-chrootless "$@" >"$out/said" 2>&1 || cat "$out/said"
}

test_debian() {
    if ! command -v dpkg-deb >/dev/null 2>&1; then
        echo "left out: there is no dpkg-deb"
        return
    fi
    count "make deb" "$(DEB_FOLDER=$out sh tools/deb.sh 2>&1 >"$out/deb" || echo "it fails")"
    deb=$(tail -n 1 "$out/deb")
    root=$out/root
    mkdir -p "$root/var/lib/dpkg/updates" "$root/var/lib/dpkg/info"
    : >"$root/var/lib/dpkg/status"
    if [ "$(id -u)" = 0 ]; then
        count "dpkg --install" "$(dpkg_in --install "$deb")"
    else
        echo "left out: dpkg installs nothing where it isn't root: the package is only unpacked"
        dpkg-deb --extract "$deb" "$root"
    fi
    printf 'c2 c1' | "$root/usr/bin/si_audit" >"$out/report" 2>"$out/said"
    count "si_audit of the package" "$(cmp examples/commit_order.report "$out/report" 2>&1)"
    runs "si-history of the package" "$root/usr/bin/si-history"
    for page in si_audit si-history; do
        count "the page of $page" "$(gzip -dc "$root/usr/share/man/man1/$page.1.gz" | cmp - "docs/$page.1" 2>&1)"
    done
    if command -v bash >/dev/null 2>&1; then
        completes "a level" "ssi" si_audit --check ss
        completes "another level" "gsi" si_audit --check g
        completes "an option" "--explain" si_audit --ex
        completes "the limits" "--max-bytes --max-events" si_audit --max
        completes "a command" "from-events" si-history from-e
        completes "an option of a command" "--legend" si-history names --leg
    fi
    if [ "$(id -u)" = 0 ]; then
        count "dpkg --purge" "$(dpkg_in --purge si-audit)"
        find "$root/usr" "$root/etc" ! -type d 2>/dev/null >"$out/left"
        count "what is left" "$(cat "$out/left")"
    fi
}

test_companion
test_debian
rm -rf "$out"
finish
