#!/usr/bin/env bash
# The mirror in PostgreSQL: the tests of mirror/tests, on three servers that this script starts in a folder of its own, and then the page
# mirror/README.md; tests/lib/page.sh says how. Where PostgreSQL isn't there and can't be installed, nothing is tried, and the script says so.
# mirror.sh [TEST..]: all tests and the page, or the named ones, as test_nights. WH names another program than crates/wh/out/wh.
set -eu
cd "$(dirname "$0")/.."
. tests/lib/postgresql.sh
if ! install_postgresql; then
    echo "passed over: PostgreSQL and python3-psycopg aren't there, and can't be installed"
    echo "0 passed, 0 failed"
    exit 0
fi
WH=$(realpath "${WH:-crates/wh/out/wh}")
servers=$(mktemp -d)
trap 'stop_servers "$servers"; rm -rf "$servers"' EXIT
start_servers "$servers" 3
export WH MIRROR_SOCKETS=$servers/1:$servers/2:$servers/3 PGHOST=$servers/1 PGUSER=postgres PATH=$PWD/mirror:$PATH

passed=0
failed=0

# Adds what the last line of a file counts, and shows the file where something failed.
count() {
    local told
    told=$(tail -n 1 "$1")
    case "$told" in
        *[0-9]" passed, "[0-9]*" failed") ;;
        *) told="0 passed, 1 failed" ;;
    esac
    [ "${told##*, }" = "0 failed" ] || cat "$1"
    passed=$((passed + ${told%% *}))
    told=${told##*, }
    failed=$((failed + ${told%% *}))
}

page() (
    . tests/lib/page.sh
    run_page mirror/README.md
)

if [ $# -gt 0 ]; then
    /usr/bin/python3 mirror/tests/run.py "$@" > "$servers/told" 2>&1 || true
    count "$servers/told"
else
    # some tests beside the others, since most of their time goes to waiting for servers
    /usr/bin/python3 mirror/tests/run.py test_nights test_formats test_chain_readers > "$servers/told.1" 2>&1 &
    /usr/bin/python3 mirror/tests/run.py test_kills test_refusals test_chain test_chain_refusals > "$servers/told.2" 2>&1 || true
    wait
    page > "$servers/told.3" 2>&1 || true
    for number in 1 2 3; do
        count "$servers/told.$number"
    done
fi
echo "$passed passed, $failed failed"
[ "$failed" = 0 ]
