#!/usr/bin/env bash
# The pages of web/: their tests, and then the page web/README.md; tests/lib/page.sh says how. Where Flask, waitress and Chart.js aren't there and can't be
# installed, nothing is tried, and where there is no browser, what needs one; the script says so.
# web.sh [TEST..]: all tests and the page, or the named ones, as test_session. WH names another program than crates/wh/out/wh.
set -eu
cd "$(dirname "$0")/.."
. tests/lib/packages.sh
has_pages() { /usr/bin/python3 -c 'import flask, waitress' 2> /dev/null && [ -f /usr/share/javascript/chart.js/chart.min.js ]; }
has_browser() { command -v chromium > /dev/null && command -v chromedriver > /dev/null && /usr/bin/python3 -c 'import selenium' 2> /dev/null; }
has_pages || install_packages python3-flask python3-waitress libjs-chart.js || true
if ! has_pages; then
    echo "passed over: Flask, waitress and Chart.js aren't there, and can't be installed"
    echo "0 passed, 0 failed"
    exit 0
fi
has_browser || install_packages chromium chromium-driver python3-selenium || true
has_browser || echo "passed over, what needs a browser: chromium, its driver and selenium aren't there, and can't be installed"
WH=$(realpath "${WH:-crates/wh/out/wh}")
export WH
if [ $# -gt 0 ]; then
    exec /usr/bin/python3 web/tests/run.py "$@"
fi
work=$(mktemp -d)
trap 'rm -rf "$work"' EXIT

passed=0
failed=0

# Adds what the last line of a file counts, and shows the file where something failed.
count() {
    local told
    told=$(tail -n 1 "$1")
    case "$told" in
        *[0-9]" passed, "[0-9]*" failed") ;;
        *) told="0 passed, 1 failed" ;;
    esac
    [ "${told##*, }" = "0 failed" ] || cat "$1"
    passed=$((passed + ${told%% *}))
    told=${told##*, }
    failed=$((failed + ${told%% *}))
}

# what needs a browser beside the others, since most of its time goes to waiting
/usr/bin/python3 web/tests/run.py test_browser > "$work/browser" 2>&1 &
/usr/bin/python3 web/tests/run.py test_session test_pages test_server > "$work/tests" 2>&1 || true
wait
count "$work/browser"
count "$work/tests"
(
    . tests/lib/page.sh
    export PATH=$PWD/web:$PATH
    run_page web/README.md
) > "$work/page" 2>&1 || true
count "$work/page"
echo "$passed passed, $failed failed"
[ "$failed" = 0 ]
