#!/usr/bin/env bash
# Runs the examples of docs/cli.md and docs/batches.md with the built program (`rt run` in crates/wh builds it), and compares what they print with
# the texts of examples/; it runs the examples of the help, and README.md as tests/lib/page.sh says. WH names another program than crates/wh/out/wh.
set -eu
cd "$(dirname "$0")/.."
. tests/lib/page.sh
program=${WH:-crates/wh/out/wh}

# name of the expected text, status, words
example() {
    local name=$1 status=$2 answered=0
    shift 2
    "$program" "$@" > "/tmp/wh-example.$$" || answered=$?
    if cmp -s "/tmp/wh-example.$$" "examples/$name" && [ "$answered" = "$status" ]; then
        passed=$((passed + 1))
    else
        failed=$((failed + 1))
        echo "wh $*: status $answered, and not the text of examples/$name"
    fi
    rm -f "/tmp/wh-example.$$"
}

# expected line, status, words
line() {
    local text=$1 status=$2 answered=0 told
    shift 2
    told=$("$program" "$@") || answered=$?
    if [ "$told" = "$text" ] && [ "$answered" = "$status" ]; then
        passed=$((passed + 1))
    else
        failed=$((failed + 1))
        echo "wh $*: status $answered, '$told' and not '$text'"
    fi
}

example products.txt 0 trial product examples/products.csv
example late.txt 0 trial product examples/late.csv --policy examples/flat.toml
example wrong_header.txt 2 trial product examples/late.csv
folder=$(mktemp -d)
trap 'rm -rf "$folder"' EXIT
line "accepted 1 init: 0 records, 0 placeholders" 0 init "$folder/shop.wh" examples/flat.toml
line "accepted 2 p1: 3 records, 0 placeholders" 0 load "$folder/shop.wh" product p1 examples/late.csv
line "already 2 p1: 3 records, 0 placeholders" 0 load "$folder/shop.wh" product p1 examples/late.csv
line "accepted 3 s1: 2 records, 1 placeholders" 0 load "$folder/shop.wh" sales s1 examples/sales.csv
line "refused: E11 not empty" 2 init "$folder/shop.wh" examples/flat.toml
line "$(printf 'format 1\ncommands 3\nchanges 3\nfacts 2\nmembers product 1 store 1 customer 0')" 0 status "$folder/shop.wh"
line "accepted 4 m1: 0 records, 0 placeholders" 0 migrate "$folder/shop.wh" m1 examples/overwritten.toml
line "clean" 0 check "$folder/shop.wh"
line "refused: E3 batch, B10 not in format, record 0" 2 load "$folder/shop.wh" void v1 examples/voids.csv
line "accepted 5 u1: 0 records, 0 placeholders" 0 upgrade "$folder/shop.wh" u1
line "accepted 6 v1: 1 records, 0 placeholders" 0 load "$folder/shop.wh" void v1 examples/voids.csv
line "accepted 1 init: 0 records, 0 placeholders" 0 init "$folder/night.wh" examples/flat.toml
example night.txt 2 deliver "$folder/night.wh" examples/night.csv
example reports.txt 2 reports "$folder/night.wh" examples/reports.csv
line "clean" 0 check "$folder/night.wh"
line "refused: M1 bad manifest, record 1" 2 deliver "$folder/night.wh" examples/sales.csv
line "failed: N1 not a warehouse" 3 status "$folder/none.wh"
line "failed: N1 not a warehouse" 3 check "$folder/none.wh"
line "failed: N1 not a warehouse" 3 load "$folder/none.wh" product p1 examples/late.csv
line "failed: N1 not a warehouse" 3 deliver "$folder/none.wh" examples/night.csv
line "failed: N1 not a warehouse" 3 reports "$folder/none.wh" examples/reports.csv
# A mistyped name leaves no file.
if [ -z "$(find "$folder" -name 'none.wh*')" ]; then
    passed=$((passed + 1))
else
    failed=$((failed + 1))
    echo "status, check, load, deliver or reports of a name that isn't there left a file"
fi
# The examples of the help work in this order, over one shop; the batch that is explained has a fault.
rm -f "$folder/shop.wh" "$folder/shop.wh-wal"
cp -R examples "$folder"
named=$(realpath "$program")
for word in init load explain plan deliver report reports query queries dump status check migrate upgrade trial; do
    words=$("$named" help "$word" | sed -n 's/^Example: wh //p')
    answered=0
    # Each of the words is one.
    # shellcheck disable=SC2086
    (cd "$folder" && "$named" $words > said) || answered=$?
    if [ -n "$words" ] && [ "$answered" = "$([ "$word" = explain ] && echo 2 || echo 0)" ]; then
        passed=$((passed + 1))
    else
        failed=$((failed + 1))
        echo "wh $words: status $answered, $(cat "$folder/said")"
    fi
done
rm -rf "$folder"
# Each word stands in the help with what its own help says of it.
for word in init load migrate upgrade deliver report query reports queries dump status explain plan trial check; do
    said=$("$program" help "$word" | head -n 1)
    if "$program" --help | grep -qE "^  $word +$said\$"; then
        passed=$((passed + 1))
    else
        failed=$((failed + 1))
        echo "wh --help does not say of $word: $said"
    fi
done
line "wh 1.0.0, reads warehouse formats 1 and 2" 0 --version
run_page README.md
