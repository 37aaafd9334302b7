#!/usr/bin/env bash
# Upgrades of the built program that are refused, and upgrades of a file of many sales that are killed; it looks at what the file then holds. Build the program first
# (`rt run` in crates/wh). killed_upgrades.sh [SALES] [PROGRAM]: 100,000 sales, or so many, a multiple of 5,000.
#
# A refused upgrade changes nothing; of several reasons the first is told. Of the files of many sales one is upgraded with no kill. Another is upgraded again and again, each time killed (`kill -9`) at another moment of the time that the first one
# took, at two of them or as many as 30 seconds allow. Afterwards `status` and `sqlite3` have to find the first format, with all sales in `fact` and
# neither table of the second, or the second, with all of them in `fact2` (this alone where the upgrade was told that it is accepted), and `check` finds it clean; the
# same upgrade again is accepted, or already accepted. In the end both files have to hold the same rows, and to be sound.
set -eu
cd "$(dirname "$0")/.."
sales=${1:-100000}
program=$(realpath "${2:-${WH:-crates/wh/out/wh}}")
batches=$((sales / 5000))
work=$(mktemp -d)
trap 'rm -rf "$work"' EXIT
. tests/lib/warehouse.sh
seconds=30
# when an upgrade is killed, in hundredths of its time
moments=(50 90 20 97 75 35 60 8)
receipt="$((batches + 2)) u1: 0 records, 0 placeholders"

python3 - "$work" $batches << 'PYTHON'
import sys

folder, batches = sys.argv[1], int(sys.argv[2])
with open(f"{folder}/night.csv", "w") as manifest:
    for number in range(1, batches + 1):
        with open(f"{folder}/{number}.csv", "w") as file:
            print("ticket,line,day,store,product,customer,quantity,amount,cost", file=file)
            for place in range(5000):
                day = f"{2023 + place % 3}-{place % 12 + 1:02}-{(place + number) % 28 + 1:02}"
                card = f"M{place * 31 % 100}" if place % 2 else ""
                print(f"T{number}-{place // 5},{place % 5 + 1},{day},M{place % 20},M{place * 17 % 100},{card},{place % 9},{place % 99}.5,1.25", file=file)
        print(f"sales,b{number},{folder}/{number}.csv", file=manifest)
PYTHON

# file, what the upgrade of it has to say
upgrade() {
    "$program" upgrade "$1" u1 > "$work/told" || fail "the upgrade: $(cat "$work/told")"
    [ "$(cat "$work/told")" = "$2 $receipt" ] || fail "the upgrade: $(cat "$work/told"), and not $2"
}

# a file and its log, and where to
copy_file() {
    rm -f "$2" "$2-wal" "$2-shm"
    cp "$1" "$2"
    [ ! -e "$1-wal" ] || cp "$1-wal" "$2-wal"
}

# when the file was killed; $format becomes that in which it is found
find_format() {
    local first second=none
    "$program" status "$work/killed" > "$work/status" || fail "$1, status: $(cat "$work/status")"
    format=$(sed -n 's/^format //p' "$work/status")
    first=$(ask "$work/killed" 'SELECT count(*) FROM fact')
    if [ "$(ask "$work/killed" "SELECT count(*) FROM sqlite_master WHERE name IN ('fact2', 'void')")" != 0 ]; then
        second=$(ask "$work/killed" 'SELECT count(*) FROM fact2')
    fi
    case "$format/$(sed -n 's/^facts //p' "$work/status")/$first/$second" in
        "1/$sales/$sales/none" | "2/$sales/0/$sales") ;;
        *) fail "$1: format $format, $first sales in fact, $second in fact2, and $(cat "$work/status")" ;;
    esac
}

# a new warehouse, SQL that changes it, an id, and the line that refuses its upgrade
refuses() {
    local status=0
    copy_file "$1" "$work/refused"
    sqlite3 "$work/refused" "$2"
    sqlite3 "$work/refused" .dump > "$work/before"
    "$program" upgrade "$work/refused" "$3" > "$work/told" || status=$?
    [ "$(cat "$work/told"), status $status" = "$4, status 2" ] || fail "$2, upgrade $3: $(cat "$work/told"), status $status, and not $4"
    sqlite3 "$work/refused" .dump | cmp -s - "$work/before" || fail "$2, upgrade $3: it is refused, and the file is changed"
}

"$program" init "$work/made" examples/flat.toml > "$work/told" || fail "no warehouse was made: $(cat "$work/told")"
full="UPDATE meta SET value = 1 WHERE name = 'commands_max'"
refuses "$work/made" 'CREATE TABLE fact2 (a)' u/1 'refused: E1 bad id'
refuses "$work/made" 'CREATE TABLE fact2 (a)' init 'refused: E2 id reused'
refuses "$work/made" "CREATE TABLE fact2 (a); $full" u1 'refused: E6 full, commands'
refuses "$work/made" 'CREATE TABLE fact2 (a)' u1 'refused: E11 not empty'
refuses "$work/made" 'CREATE TABLE Void (a)' u1 'refused: E11 not empty'
refuses "$work/made" 'CREATE TABLE other (a); CREATE INDEX void ON other (a)' u1 'refused: E11 not empty'
refuses "$work/made" 'CREATE VIEW fact2 AS SELECT * FROM fact' u1 'refused: E11 not empty'
copy_file "$work/made" "$work/new"
"$program" upgrade "$work/new" u1 > "$work/told" || fail "the upgrade of a new warehouse: $(cat "$work/told")"
[ "$(cat "$work/told")" = 'accepted 2 u1: 0 records, 0 placeholders' ] || fail "the upgrade of a new warehouse: $(cat "$work/told")"
refuses "$work/new" "$full" u2 'refused: E6 full, commands'
refuses "$work/new" 'CREATE TABLE other (a)' u2 'refused: E6 format, 2'

"$program" deliver "$work/made" "$work/night.csv" > "$work/told" || fail "the delivery: $(cat "$work/told")"
[ "$(grep -c '^accepted ' "$work/told")" = $batches ] || fail "the delivery: $(cat "$work/told")"
copy_file "$work/made" "$work/plain"
before=$(now)
upgrade "$work/plain" accepted
took=$(($(now) - before))

copy_file "$work/made" "$work/killed"
round=0
stopped=0
for moment in "${moments[@]}"; do
    [ $round -lt 2 ] || [ $SECONDS -lt $seconds ] || break
    round=$((round + 1))
    where="killed after $moment hundredths"
    "$program" upgrade "$work/killed" u1 > "$work/told" &
    process=$!
    sleep "$(awk "BEGIN { print $took * $moment / 100 / 1000000000 }")"
    kill -9 $process 2> /dev/null || true
    wait $process 2> /dev/null || stopped=$((stopped + 1))
    # what was left is checked while the next upgrade runs
    copy_file "$work/killed" "$work/left.$round"
    { "$program" check "$work/left.$round" > "$work/verdict.$round" || true; } &
    find_format "$where"
    case "$format/$(cat "$work/told")" in
        1/) ;;
        2/ | "2/accepted $receipt")
            upgrade "$work/killed" already
            copy_file "$work/made" "$work/killed"
            ;;
        *) fail "$where it was told '$(cat "$work/told")', and the format is $format" ;;
    esac
done
upgrade "$work/killed" accepted
find_format 'in the end'
wait
for number in $(seq $round); do
    [ "$(cat "$work/verdict.$number")" = clean ] || fail "the check after kill $number: $(cat "$work/verdict.$number")"
done
[ $stopped -gt 0 ] || fail "no upgrade was killed before it ended"
rows "$work/plain" > "$work/plain.rows"
rows "$work/killed" > "$work/killed.rows"
[ -s "$work/plain.rows" ] || fail "the rows of the file can't be read"
cmp "$work/plain.rows" "$work/killed.rows" || fail "the rows differ"
[ "$(ask "$work/killed" 'PRAGMA integrity_check')" = ok ] || fail "the file isn't sound"
echo "$round upgrades of $sales sales, $stopped of them killed before they ended: ok"
