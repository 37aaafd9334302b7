#!/usr/bin/env bash
# What `wh check` of the built program says of files of either format that another program changed, and of a backup that was put back beside a newer log.
# checked_changes.sh [PROGRAM]
set -eu
cd "$(dirname "$0")/.."
program=$(realpath "${1:-${WH:-crates/wh/out/wh}}")
work=$(mktemp -d)
trap 'rm -rf "$work"' EXIT
. tests/lib/warehouse.sh

# what is said of the file: its line and the status
verdict() {
    local status=0
    "$program" check "$1" > "$work/text" || status=$?
    echo "$(cat "$work/text"), status $status"
}

# name, file, what is said
says() {
    local said
    said=$(verdict "$2")
    [ "$said" = "$3" ] || fail "$1: $said and not $3"
}

"$program" init "$work/shop.wh" examples/flat.toml > "$work/told" || fail "$(cat "$work/told")"
for number in 1 2 3; do
    for kind in product store customer sales; do
        batch $kind $number > "$work/$kind.csv"
        "$program" load "$work/shop.wh" $kind $kind$number "$work/$kind.csv" > "$work/told" || fail "$(cat "$work/told")"
    done
done
says 'as it was made' "$work/shop.wh" 'clean, status 0'

# file; of its changes each with the line that it gives, a bar between
changes=0
tell_changes() {
    local change line
    while IFS='|' read -r change line; do
        cp "$1" "$work/changed.wh"
        sqlite3 "$work/changed.wh" "$change"
        says "$change" "$work/changed.wh" "$line, status 3"
        changes=$((changes + 1))
    done
}

tell_changes "$work/shop.wh" << 'CHANGES'
INSERT INTO meta VALUES ('colour', 1)|wrong: meta
UPDATE meta SET value = 2 WHERE name = 'format'|failed: N1 not a warehouse
UPDATE command SET placeholders = placeholders + 1 WHERE id = 'sales2'|wrong: command
UPDATE command SET bytes = 'text' WHERE id = 'store2'|failed: E7 damaged, command
UPDATE command SET kind = 'upgrade' WHERE id = 'sales2'|wrong: command
DELETE FROM command WHERE id = 'product3'|wrong: command
UPDATE member SET opening = opening + 1 WHERE dim = 1 AND durable = 7|wrong: member
UPDATE change SET v1 = 'Other' WHERE command = 3 AND record = 5|wrong: change
UPDATE product SET to_day = from_day WHERE surrogate = (SELECT max(surrogate) FROM product)|wrong: product
UPDATE store SET a1 = x'41' WHERE surrogate = 1|failed: E7 damaged, store
DELETE FROM customer WHERE surrogate = 0|wrong: customer
DELETE FROM profile WHERE number = 2|wrong: profile
UPDATE calendar SET weekday_name = 'Sonntag' WHERE date_key = 20240107|wrong: calendar
UPDATE fact SET amount = amount + 1 WHERE ticket = 'T2-7' AND line = 2|wrong: fact
UPDATE fact SET product_key = product_key + 1 WHERE ticket = 'T1-1' AND line = 1|wrong: fact
DELETE FROM fact WHERE ticket = 'T3-0'|wrong: fact
CHANGES

# The same of a file of the second format, with sales of before the upgrade and of after it.
cp "$work/shop.wh" "$work/upgraded.wh"
"$program" upgrade "$work/upgraded.wh" u1 > "$work/told" || fail "$(cat "$work/told")"
says 'as it was upgraded' "$work/upgraded.wh" 'clean, status 0'
batch discounted 5 > "$work/sales.csv"
"$program" load "$work/upgraded.wh" sales sales5 "$work/sales.csv" > "$work/told" || fail "$(cat "$work/told")"
says 'with sales after the upgrade' "$work/upgraded.wh" 'clean, status 0'
tell_changes "$work/upgraded.wh" << 'CHANGES'
INSERT INTO meta VALUES ('colour', 1)|wrong: meta
UPDATE meta SET value = 1 WHERE name = 'format'|wrong: command
UPDATE meta SET value = 0 WHERE name = 'format'|failed: N2 old format
UPDATE meta SET value = 3 WHERE name = 'format'|failed: N3 new format
DROP TABLE fact|failed: N1 not a warehouse
DROP TABLE fact2|failed: N1 not a warehouse
DROP TABLE void|failed: N1 not a warehouse
ALTER TABLE fact2 RENAME COLUMN discount TO reduction|failed: N1 not a warehouse
UPDATE command SET kind = 'sales' WHERE id = 'u1'|wrong: command
UPDATE command SET bytes = x'0a' WHERE id = 'u1'|wrong: command
UPDATE command SET records = 1 WHERE id = 'u1'|wrong: command
UPDATE command SET kind = 'upgraded' WHERE id = 'u1'|failed: E7 damaged, command
UPDATE product SET a2 = 'Other' WHERE surrogate = 1|wrong: product
INSERT INTO fact VALUES ('T9-9', 1, 20240305, 1, 1, 0, 1, 1, 0, 0, 1, 250, 160)|wrong: fact
INSERT INTO fact VALUES ('T9-9', 0, 20240305, 1, 1, 0, 1, 1, 0, 0, 1, 250, 160)|failed: E7 damaged, fact
UPDATE fact2 SET amount = amount + 1 WHERE ticket = 'T2-7' AND line = 2|wrong: fact2
UPDATE fact2 SET product_key = product_key + 1 WHERE ticket = 'T1-1' AND line = 1|wrong: fact2
UPDATE fact2 SET discount = discount + 1 WHERE ticket = 'T1-1' AND line = 1|wrong: fact2
UPDATE fact2 SET discount = discount + 1 WHERE ticket = 'T5-7' AND line = 2|wrong: fact2
UPDATE fact2 SET discount = -1 WHERE ticket = 'T5-7' AND line = 2|failed: E7 damaged, fact2
UPDATE fact2 SET discount = 1000000000 WHERE ticket = 'T5-7' AND line = 2|failed: E7 damaged, fact2
UPDATE fact2 SET discount = 0.5 WHERE ticket = 'T5-7' AND line = 2|failed: E7 damaged, fact2
DELETE FROM fact2 WHERE ticket = 'T3-0'|wrong: fact2
INSERT INTO void VALUES ('T1-1', 1, 3)|wrong: void
INSERT INTO void VALUES ('T1-1', 0, 3)|failed: E7 damaged, void
INSERT INTO void VALUES ('T1-1', 1, 10000000)|failed: E7 damaged, void
CHANGES

# Rows in another order are no difference.
cp "$work/shop.wh" "$work/changed.wh"
sqlite3 "$work/changed.wh" "CREATE TEMP TABLE kept AS SELECT * FROM fact; DELETE FROM fact; INSERT INTO fact SELECT * FROM kept ORDER BY random()"
says 'facts in another order' "$work/changed.wh" 'clean, status 0'

# A backup from before two loads is put back, and the log of the second is left beside it. The log is taken while the load runs, as long as
# it takes until one is whole.
cp "$work/shop.wh" "$work/backup.wh"
batch product 4 > "$work/product.csv"
"$program" load "$work/shop.wh" product product4 "$work/product.csv" > "$work/told" || fail "$(cat "$work/told")"
cp "$work/shop.wh" "$work/before.wh"
batch sales 4 > "$work/sales.csv"
for try in $(seq 50); do
    cp "$work/before.wh" "$work/live.wh"
    rm -f "$work"/log.*
    "$program" load "$work/live.wh" sales sales4 "$work/sales.csv" > "$work/told" &
    load=$!
    number=0
    while kill -0 $load 2> /dev/null; do
        cp "$work/live.wh-wal" "$work/log.$number" 2> /dev/null || true
        number=$((number + 1))
    done
    wait $load || fail "$(cat "$work/told")"
    for log in $(ls -t "$work"/log.* 2> /dev/null | head -n 20); do
        cp "$work/before.wh" "$work/tried.wh"
        cp "$log" "$work/tried.wh-wal"
        [ "$(ask "$work/tried.wh" "SELECT count(*) FROM command WHERE id = 'sales4'")" = 1 ] || continue
        cp "$work/backup.wh" "$work/restored.wh"
        cp "$log" "$work/restored.wh-wal"
        said=$(verdict "$work/restored.wh")
        [ "$said" != 'clean, status 0' ] || fail "a backup beside a newer log: $said"
        echo "check: $changes changes told; a backup beside a newer log: $said; ok"
        exit 0
    done
done
fail "no whole log was seen in $try loads"
