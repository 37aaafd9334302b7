#!/usr/bin/env bash
# Many runs of the built program at once over one file. Build the program first (`rt run` in crates/wh). runs_at_once.sh [ROUNDS] [PROGRAM]: 5 rounds, or so many.
#
# In each round 20 loads and 10 reports are begun at once. A load is accepted and kept, or is told that the file can't be connected, and isn't kept; a
# report is that of some commands that were accepted, or is told the same. Those that were told so are sent again, one after the other, and are accepted.
# Then the same is done with `flock` in front, which lets one run wait for the other: all are accepted, and no report is refused. In the end the
# file is clean, and holds the rows of another to which the same loads were sent one by one in the order of their numbers.
set -eu
cd "$(dirname "$0")/.."
rounds=${1:-5}
program=$(realpath "${2:-${WH:-crates/wh/out/wh}}")
work=$(mktemp -d)
trap 'rm -rf "$work"' EXIT
. tests/lib/warehouse.sh
passed=0
busy=0
kinds=(sales product store customer)
days='2023-01-01 2026-12-31'

# file, number of the load; what is told goes into a file of its own
load() {
    "${front[@]}" "$program" load "$1" "${kinds[$(($2 % 4))]}" "b$2" "$work/$2.csv" > "$work/told.$2" || echo $? > "$work/status.$2"
}

# file, number of the report
report() {
    "${front[@]}" "$program" report "$1" date.month was $days > "$work/report.$2" || echo $? > "$work/report-status.$2"
}

# begins 20 loads and 10 reports of the file, and waits for all
all_at_once() {
    rm -f "$work"/told.* "$work"/status.* "$work"/report*
    for number in $(seq 1 20); do
        load "$1" "$number" &
        [ $((number % 2)) = 1 ] || report "$1" $((number / 2)) &
    done
    wait
}

# the reports of the file after each number of its commands, by loads one by one
one_by_one() {
    cp "$work/made" "$work/plain"
    "$program" report "$work/plain" date.month was $days > "$work/plain.1"
    for number in $(ask "$work/shop" 'SELECT id FROM command WHERE number > 1 ORDER BY number' | sed 's/^b//'); do
        load "$work/plain" "$number"
        grep -q '^accepted ' "$work/told.$number" || fail "one by one, load $number: $(cat "$work/told.$number")"
        "$program" report "$work/plain" date.month was $days > "$work/plain.$(ask "$work/plain" 'SELECT max(number) FROM command')"
    done
    rows "$work/plain" > "$work/plain.rows"
    rows "$work/shop" > "$work/shop.rows"
    cmp "$work/plain.rows" "$work/shop.rows" || fail "the rows are others than one by one"
    passed=$((passed + 1))
}

# whether a report is one of those after some number of commands
is_one_of_them() {
    for whole in "$work"/plain.[0-9]*; do
        if cmp -s "$1" "$whole"; then return 0; fi
    done
    return 1
}

# whether each load was accepted and is kept, or was told that the file is not connected; how many are kept
judge_loads() {
    kept=0
    for number in $(seq 1 20); do
        there=$(ask "$work/shop" "SELECT count(*) FROM command WHERE id = 'b$number'")
        case "$(cat "$work/status.$number" 2> /dev/null || echo 0)/$there/$(cat "$work/told.$number")" in
            "0/1/accepted "*" b$number: 300 records, "*" placeholders") kept=$((kept + 1)) ;;
            "3/0/failed: F1 file, $work/shop") busy=$((busy + 1)) ;;
            *) fail "load $number of many: $there kept, $(cat "$work/told.$number")" ;;
        esac
        passed=$((passed + 1))
    done
}

# how many reports were printed
served() {
    local count=0
    for number in $(seq 1 10); do
        [ -e "$work/report-status.$number" ] || count=$((count + 1))
    done
    echo "$count"
}

judge_reports() {
    for number in $(seq 1 10); do
        cp "$work/report.$number" "$work/found"
        case "$(cat "$work/report-status.$number" 2> /dev/null || echo 0)/$(head -n 1 "$work/found")" in
            "3/failed: F1 file, $work/shop") [ "$1" != queued ] || fail "report $number, queued: $(cat "$work/found")" ;;
            "0/report date.month was $days") is_one_of_them "$work/found" || fail "report $number of many: $(cat "$work/found")" ;;
            *) fail "report $number of many: $(cat "$work/found")" ;;
        esac
        passed=$((passed + 1))
    done
}

is_clean() {
    [ "$("$program" check "$work/shop")" = clean ] || fail "the file isn't clean"
    passed=$((passed + 1))
}

"$program" init "$work/made" examples/flat.toml > "$work/told"
for number in $(seq 1 20); do
    batch "${kinds[$((number % 4))]}" "$number" > "$work/$number.csv"
done
for round in $(seq "$rounds"); do
    for how in plainly queued; do
        rm -f "$work"/shop* "$work"/plain*
        cp "$work/made" "$work/shop"
        front=()
        [ $how = plainly ] || front=(flock "$work/shop.lock")
        all_at_once "$work/shop"
        judge_loads
        if [ $how = queued ]; then
            [ $kept = 20 ] || fail "$kept of 20 loads are kept, queued"
        else
            [ $((kept + $(served))) -ge 1 ] || fail "none of 20 loads and 10 reports was served"
            for number in $(seq 1 20); do
                [ ! -e "$work/status.$number" ] || load "$work/shop" "$number"
                grep -q '^accepted ' "$work/told.$number" || fail "load $number again: $(cat "$work/told.$number")"
            done
        fi
        is_clean
        one_by_one
        judge_reports $how
    done
done
echo "$rounds rounds of 20 loads and 10 reports at once: $busy loads were told that the file is used"
echo "$passed passed, 0 failed"
