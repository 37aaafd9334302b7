#!/usr/bin/env bash
# Kills deliveries of the built program at random moments, delivers the same manifest again, and looks at what the file then holds. Build the
# program first (`rt run` in crates/wh). killed_deliveries.sh [ROUNDS] [PROGRAM]: 50 rounds, or as many as 300 seconds allow.
#
# A manifest names 40 commands of all six kinds, in its midst an upgrade. One file is delivered it with no kill. In each round another is made, and its delivery is killed
# (`kill -9`) twice, each time at some moment of the time that the first one took. What is printed of it is a beginning of what is printed
# without a kill, each command whose line was printed is kept, and `check` finds the file clean. Afterwards the same manifest has to end as without a kill: each command with
# its receipt, accepted or already there, and the same rows in all tables.
set -eu
cd "$(dirname "$0")/.."
rounds=${1:-50}
program=$(realpath "${2:-${WH:-crates/wh/out/wh}}")
work=$(mktemp -d)
trap 'rm -rf "$work"' EXIT
. tests/lib/warehouse.sh
seconds=300
kinds=(product sales store customer sales)

for number in $(seq 1 40); do
    if [ $number = 21 ]; then
        echo "upgrade,u$number,none"
    elif [ $((number % 8)) = 0 ]; then
        policy=$([ $((number % 16)) = 0 ] && echo flat || echo overwritten)
        echo "migrate,m$number,examples/$policy.toml"
    else
        kind=${kinds[$((number % 5))]}
        layout=$kind
        [ "$kind" != sales ] || [ $number -lt 21 ] || layout=discounted
        batch "$layout" "$number" > "$work/$number.csv"
        echo "$kind,b$number,$work/$number.csv"
    fi
done > "$work/night.csv"

"$program" init "$work/plain" examples/flat.toml > "$work/told" || fail "no warehouse was made: $(cat "$work/told")"
cp "$work/plain" "$work/made"
before=$(now)
"$program" deliver "$work/plain" "$work/night.csv" > "$work/ample" || fail "the delivery: $(cat "$work/ample")"
took=$(($(now) - before))
[ "$(grep -c '^accepted ' "$work/ample")" = 40 ] || fail "the delivery: $(cat "$work/ample")"
sed 's/^accepted //' "$work/ample" > "$work/receipts"
rows "$work/plain" > "$work/plain.rows"
[ -s "$work/plain.rows" ] || fail "the rows of the file can't be read"

round=0
stopped=0
lines=0
SECONDS=0
while [ $round -lt "$rounds" ] && [ $SECONDS -lt $seconds ]; do
    round=$((round + 1))
    rm -f "$work/killed" "$work/killed-wal"
    cp "$work/made" "$work/killed"
    for night in first second; do
        "$program" deliver "$work/killed" "$work/night.csv" > "$work/told" &
        process=$!
        sleep "$(moment $took)"
        kill -9 $process 2> /dev/null || true
        wait $process 2> /dev/null || stopped=$((stopped + 1))
        "$program" check "$work/killed" > "$work/verdict" || fail "round $round, check after the $night night: $(cat "$work/verdict")"
        sed 's/^accepted //; s/^already //' "$work/told" > "$work/found"
        head -c "$(wc -c < "$work/found")" "$work/receipts" | cmp -s - "$work/found" || fail "round $round, the $night night: $(cat "$work/told")"
        # beside those of the manifest the making is kept
        printed=$(wc -l < "$work/found")
        kept=$("$program" status "$work/killed" | sed -n 's/^commands //p')
        [ "$printed" -lt "$kept" ] || fail "round $round, the $night night: $printed lines were printed, and $kept commands are kept"
        lines=$((lines + printed))
    done
    "$program" deliver "$work/killed" "$work/night.csv" > "$work/told" || fail "round $round, in the end: $(cat "$work/told")"
    sed 's/^accepted //; s/^already //' "$work/told" | cmp -s - "$work/receipts" || fail "round $round, in the end: $(cat "$work/told")"
    rows "$work/killed" > "$work/killed.rows"
    cmp "$work/plain.rows" "$work/killed.rows" || fail "round $round: the rows differ"
done
[ "$(ask "$work/killed" 'PRAGMA integrity_check')" = ok ] || fail "the file isn't sound"
[ $stopped -gt 0 ] || fail "no delivery was killed before it ended"
[ $lines -gt 0 ] || fail "no line was printed before a kill"
echo "$round deliveries of 40 commands, $stopped times killed before the end, $lines lines printed before: ok"
