#!/bin/sh
# Installs what `make databases` and `si-history record` need, from Debian: the stores, and their drivers for the Python of the
# system. No server is started, now or at the next start of the machine: the recorder starts its own. SQLite comes with Python.
#
#     sh tools/install_databases.sh [--only NAME]..
#
# NAME is the word of a store for the recorder. Without --only all stores are installed.
stores="postgres mariadb lmdb berkeley h2 hsqldb firebird derby rocksdb myrocks"
java="default-jre-headless python3-jpype"
# Where the recorder looks for MyRocks. Its package would have every MariaDB server of the machine load it, so the file is taken
# out of the package, and the package isn't installed.
engines=/usr/local/lib/si-history
engine=ha_rocksdb.so

# usage WHY: says what is wrong with the command line.
usage() {
    echo "install_databases: $1; usage: install_databases.sh [--only NAME].., of $stores" >&2
    exit 2
}

# packages NAME: the packages that a store needs.
packages() {
    case $1 in
        postgres) echo postgresql python3-psycopg2 ;;
        mariadb) echo mariadb-server python3-pymysql ;;
        lmdb) echo python3-lmdb ;;
        berkeley) echo python3-bsddb3 ;;
        h2) echo libh2-java "$java" ;;
        hsqldb) echo libhsqldb-java "$java" ;;
        firebird) echo libfbclient2 firebird3.0-server-core ;;
        derby) echo libderby-java "$java" ;;
        rocksdb) echo librocksdb7.8 ;;
        myrocks) echo mariadb-server python3-pymysql libsnappy1v5 liblz4-1 libzstd1 ;;
    esac
}

# unpack_myrocks: takes the engine out of its package.
unpack_myrocks() (
    place=$(mktemp -d) || exit 1
    trap 'rm -rf "$place"' EXIT
    trap 'exit 1' HUP INT TERM
    cd "$place" && apt-get -o APT::Sandbox::User=root download mariadb-plugin-rocksdb || exit 1
    dpkg-deb --extract mariadb-plugin-rocksdb_*.deb contents && install -d "$engines" &&
        install -m 644 "contents/usr/lib/mysql/plugin/$engine" "$engines/$engine"
)

wanted=
while [ $# -gt 0 ]; do
    [ "$1" = --only ] || usage "what is '$1'?"
    case " $stores " in
        *" ${2:-} "*) ;;
        *) usage "there is no store '${2:-}'" ;;
    esac
    wanted="$wanted $2"
    shift 2
done
: "${wanted:=$stores}"
needed=
for store in $wanted; do
    needed="$needed $(packages "$store")"
done

if ! command -v apt-get >/dev/null; then
    echo "install_databases: there is no apt-get; install these by your system's own means:$needed" >&2
    exit 2
fi
if [ "$(id -u)" != 0 ]; then
    echo "install_databases: only root may install; say, for example, sudo sh tools/install_databases.sh" >&2
    exit 2
fi
# What a package starts while it is installed is not started where this program says 101.
policy=/usr/sbin/policy-rc.d
made=

# Takes the program away again, if this script made it, however the script ends.
clean_up() {
    [ -z "$made" ] || rm -f "$policy"
}
trap clean_up EXIT
trap 'exit 129' HUP
trap 'exit 130' INT
trap 'exit 143' TERM
if [ ! -e "$policy" ]; then
    made=yes
    printf '#!/bin/sh\nexit 101\n' >"$policy" && chmod 755 "$policy" || exit 1
fi
export DEBIAN_FRONTEND=noninteractive
# Servers that stood here before this script are left as they are.
before=$(dpkg-query --show --showformat='${Package} ${db:Status-Status}\n' postgresql mariadb-server 2>/dev/null)
# shellcheck disable=SC2086
apt-get update && apt-get -o DPkg::Lock::Timeout=300 install --yes --no-install-recommends $needed
status=$?
clean_up
made=
if [ "$status" != 0 ]; then
    echo "install_databases: apt-get failed, as it says above" >&2
    exit 1
fi
if [ -d /run/systemd/system ]; then
    for package in "postgresql postgresql" "mariadb-server mariadb"; do
        case $before in
            *"${package% *} installed"*) ;;
            *) systemctl disable --now "${package#* }" ;;
        esac
    done
fi
case " $wanted " in
    *" myrocks "*)
        if ! unpack_myrocks; then
            echo "install_databases: MyRocks could not be taken out of its package, as it says above" >&2
            exit 1
        fi
        ;;
esac
echo "install_databases: installed what these need: $wanted"
