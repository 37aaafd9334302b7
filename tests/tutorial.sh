#!/usr/bin/env bash
# Runs the commands of docs/tutorial.md with the built program, and compares what each prints with what stands below it there; tests/lib/page.sh says
# how. WH names another program than crates/wh/out/wh.
set -eu
cd "$(dirname "$0")/.."
. tests/lib/page.sh
run_page docs/tutorial.md
