#!/usr/bin/env bash
# Kills loads of the built program at random moments, and looks at what their file then holds. Build the program first
# (`rt run` in crates/wh). killed_loads.sh [LOADS] [PROGRAM]: 50 loads, or as many as 60 seconds allow.
#
# One file is made and loaded with no kill, and another with each load killed (`kill -9`) at some moment of the time that
# the first one took. Afterwards `status` has to find the commands before the load, or those and the load (these alone
# where the load was told that it is accepted), and `check` finds it clean; the same load again has to answer with its
# number. In the end both files have to hold the same rows in the ten tables, and to be sound.
set -eu
cd "$(dirname "$0")/.."
loads=${1:-50}
program=$(realpath "${2:-${WH:-crates/wh/out/wh}}")
policy=$PWD/examples/flat.toml
work=$(mktemp -d)
trap 'rm -rf "$work"' EXIT
plain=$work/plain
killed=$work/killed
seconds=60
kinds=(sales product store customer)

. tests/lib/warehouse.sh

# file, number of the load
load() {
    "$program" load "$1" "${kinds[$(($2 % 4))]}" "b$2" "$work/$2.csv"
}

for file in "$plain" "$killed"; do
    "$program" init "$file" "$policy" > "$work/told" || fail "no warehouse was made: $(cat "$work/told")"
done
for number in 1 2 3; do
    batch "${kinds[$((number % 4))]}" "$number" > "$work/$number.csv"
    for file in "$plain" "$killed"; do
        load "$file" "$number" > "$work/told" || fail "load $number: $(cat "$work/told")"
    done
done

number=3
stopped=0
SECONDS=0
while [ $number -lt $((loads + 3)) ] && [ $SECONDS -lt $seconds ]; do
    number=$((number + 1))
    batch "${kinds[$((number % 4))]}" "$number" > "$work/$number.csv"
    before=$(now)
    load "$plain" "$number" > "$work/told" || fail "load $number: $(cat "$work/told")"
    case "$(cat "$work/told")" in
        "accepted $((number + 1)) b$number: 300 records, "*" placeholders") ;;
        *) fail "load $number: $(cat "$work/told")" ;;
    esac
    receipt=$(sed 's/^accepted //' "$work/told")
    took=$(($(now) - before))

    "$program" load "$killed" "${kinds[$((number % 4))]}" "b$number" "$work/$number.csv" > "$work/told" &
    process=$!
    sleep "$(moment $took)"
    kill -9 $process 2> /dev/null || true
    wait $process 2> /dev/null || stopped=$((stopped + 1))

    "$program" status "$killed" > "$work/status" || fail "status behind load $number: $(cat "$work/status")"
    kept=$(sed -n 's/^commands //p' "$work/status")
    "$program" check "$killed" > "$work/verdict" || fail "check behind load $number: $(cat "$work/verdict")"
    case "$kept/$(cat "$work/told")" in
        "$((number + 1))/accepted $receipt" | "$((number + 1))/") word=already ;;
        "$number/") word=accepted ;;
        *) fail "load $number was told '$(cat "$work/told")', and $kept commands are kept" ;;
    esac
    load "$killed" "$number" > "$work/told" || fail "load $number again: $(cat "$work/told")"
    [ "$(cat "$work/told")" = "$word $receipt" ] || fail "load $number again: $(cat "$work/told"), and not $word"
done

rows "$plain" > "$work/plain.rows"
rows "$killed" > "$work/killed.rows"
[ -s "$work/plain.rows" ] || fail "the rows of the file can't be read"
cmp "$work/plain.rows" "$work/killed.rows" || fail "the rows differ"
[ "$(ask "$killed" 'PRAGMA integrity_check')" = ok ] || fail "the file isn't sound"
echo "$((number - 3)) loads, $stopped of them killed before they ended: ok"
