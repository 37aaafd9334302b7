#!/usr/bin/env bash
# Runs docs/queries.md: its commands with the built program, and its queries with the program sqlite3 and with Python, each of which has to answer the
# rows of the report or query before it; tests/lib/page.sh says how. WH names another program than crates/wh/out/wh.
set -eu
cd "$(dirname "$0")/.."
command -v sqlite3 > /dev/null || { echo "sqlite3 is missing: apt-get install sqlite3"; exit 1; }
. tests/lib/page.sh
run_page docs/queries.md
