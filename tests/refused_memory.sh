#!/usr/bin/env bash
# Refuses each growth of memory of a load in turn, and of one making, in the built program, and looks at what its file then holds.
# Build the program first (`rt run` in crates/wh). refused_memory.sh [STEP] [PROGRAM] [NAME]: every growth of a load of records, of a load of sales and of
# a load of a late record that moves a sale, of a migration, of an upgrade and of a load of sales after it, of a delivery of these three loads, of a report, of a query, of
# a dump and of a check, or one in STEP of them, and of the making, which has more, one in ten times as many; with NAME (making, load, sales, late, migration, upgrade,
# discounted, delivery, report, query, dump, check, pages, tuples) of that one alone. Of pages, those of an open of a file of over 32 MB, three are refused. The run of
# tuples, a query whose answer has 5,000 lines, may have so much memory and no more (`ulimit -v`), from what suffices for an open to what suffices for it.
#
# A run is answered as with ample memory, with `failed: E8 memory`, or with `failed: E9 store, memory`. After E8 the file holds what it
# held; the same words again are answered as accepted. After E9 they are answered as accepted or, of a load that was kept, as already
# accepted, of a making that was kept, as not empty. In the end the file holds the rows that it holds without a refusal.
set -eu
cd "$(dirname "$0")/.."
step=${1:-1}
program=$(realpath "${2:-${WH:-crates/wh/out/wh}}")
alone=${3:-}
work=$(mktemp -d)
trap 'rm -rf "$work"' EXIT
cc -O1 -shared -fPIC -o "$work/refuse.so" tests/lib/refuse_allocation.c -ldl

fail() {
    echo "$*"
    exit 1
}

cat > "$work/policy.toml" <<'POLICY'
first_year = 2024
last_year = 2024
[[product]]
name = "brand"
type = 2
[[store]]
name = "city"
type = 2
[[customer]]
name = "tier"
type = 2
POLICY
printf 'id,day,brand\nP1,2024-02-01,Acme\n' > "$work/first.csv"
printf 'id,day,brand\nP1,2024-01-20,Bolt\nP2,2024-01-10,Cask\n' > "$work/second.csv"

# the rows of all tables of a file
rows() {
    if command -v sqlite3 > /dev/null; then
        sqlite3 "$1" ".dump"
    else
        python3 -c 'import sqlite3, sys
for line in sqlite3.connect(sys.argv[1]).iterdump(): print(line)' "$1"
    fi | LC_ALL=C sort
}

# the file before the work of that name, or none
restore() {
    rm -f "$work/file" "$work/file-wal"
    if [ -e "$work/$1.before" ]; then cp "$work/$1.before" "$work/file"; fi
}

# name of the work; one growth in how many; what judges a run by its text, its status ($answered) and the words; the words
refuse_each() {
    local name=$1 step=$2 judge=$3 number=1 refused=0
    short=0 stopped=0
    shift 3
    [ -z "$alone" ] || [ "$alone" = "$name" ] || return 0
    restore "$name"
    "$program" "$@" > "$work/ample" || fail "$name: $(cat "$work/ample")"
    rows "$work/file" > "$work/rows"
    while true; do
        rm -f "$work/refused"
        restore "$name"
        where="$name, growth $number refused"
        answered=0
        LD_PRELOAD="$work/refuse.so" REFUSED_ALLOCATION=$number REFUSED_NOTE="$work/refused" "$program" "$@" > "$work/text" || answered=$?
        [ -e "$work/refused" ] || break
        "$judge" "$@"
        rows "$work/file" > "$work/found"
        cmp -s "$work/found" "$work/rows" || fail "$where: the rows differ"
        refused=$((refused + 1))
        number=$((number + step))
    done
    [ $refused -gt 0 ] || fail "$name: no growth was refused"
    echo "$name: $refused growths refused, $short answered with E8, $stopped with E9, the others as with ample memory"
}

# Counts the fault of a run that ended with one, and compares the text of one that didn't with that of ample memory.
count_fault() {
    case "$answered/$(grep '^failed: ' "$work/text" || true)" in
        0/) cmp -s "$work/text" "$work/ample" || fail "$where: $(cat "$work/text")" ;;
        "3/failed: E8 memory") short=$((short + 1)) ;;
        "3/failed: E9 store, memory") stopped=$((stopped + 1)) ;;
        *) fail "$where: status $answered and $(cat "$work/text")" ;;
    esac
}

# What is printed before a fault's line is a beginning of what ample memory prints.
begins_as_with_ample_memory() {
    grep -v '^failed: ' "$work/text" > "$work/told" || true
    head -n "$(wc -l < "$work/told")" "$work/ample" | cmp -s - "$work/told" || fail "$where: $(cat "$work/text")"
}

# One answer; the same words again are answered as with ample memory after E8, and with $kept where the work was done.
judge_work() {
    [ "$(wc -l < "$work/text")" = 1 ] || fail "$where: status $answered and $(cat "$work/text")"
    count_fault
    "$program" "$@" > "$work/again" || true
    case "$(cat "$work/text")" in
        "failed: E8 memory") cmp -s "$work/again" "$work/ample" ;;
        "failed: E9 store, memory") cmp -s "$work/again" "$work/ample" || [ "$(cat "$work/again")" = "$kept" ] ;;
        *) [ "$(cat "$work/again")" = "$kept" ] ;;
    esac || fail "$where: $(cat "$work/text"), then $(cat "$work/again")"
}

# name of the work; what it is told again where it was kept; one growth in how many; the words
refuse_all() {
    local name=$1 step=$3
    kept=$2
    shift 3
    refuse_each "$name" "$step" judge_work "$@"
}

refuse_all making 'refused: E11 not empty' $((step * 10)) init "$work/file" "$work/policy.toml"
"$program" init "$work/load.before" "$work/policy.toml" > "$work/told" || fail "$(cat "$work/told")"
"$program" load "$work/load.before" product p1 "$work/first.csv" > "$work/told" || fail "$(cat "$work/told")"
refuse_all load 'already 3 p2: 2 records, 0 placeholders' "$step" load "$work/file" product p2 "$work/second.csv"

header=ticket,line,day,store,product,customer,quantity,amount,cost
printf '%s\nT1,1,2024-01-25,S1,P1,,2,5.00,3.20\n' "$header" > "$work/known.csv"
printf '%s\nT2,1,2024-06-10,S1,P9,C9,1,10.00,7.00\n' "$header" > "$work/unknown.csv"
cp "$work/load.before" "$work/sales.before"
"$program" load "$work/sales.before" sales s1 "$work/known.csv" > "$work/told" || fail "$(cat "$work/told")"
cp "$work/sales.before" "$work/late.before"
refuse_all sales 'already 4 s2: 1 records, 2 placeholders' "$step" load "$work/file" sales s2 "$work/unknown.csv"
refuse_all late 'already 4 p2: 2 records, 0 placeholders' "$step" load "$work/file" product p2 "$work/second.csv"

sed 's/type = 2/type = 1/' "$work/policy.toml" > "$work/newer.toml"
cp "$work/late.before" "$work/migration.before"
"$program" load "$work/migration.before" product p2 "$work/second.csv" > "$work/told" || fail "$(cat "$work/told")"
refuse_all migration 'already 5 m1: 0 records, 0 placeholders' "$step" migrate "$work/file" m1 "$work/newer.toml"

cp "$work/late.before" "$work/upgrade.before"
refuse_all upgrade 'already 4 u1: 0 records, 0 placeholders' "$step" upgrade "$work/file" u1
printf '%s\nT2,1,2024-06-10,S1,P9,C9,1,10.00,7.00,0.50\n' "$header,discount" > "$work/discounted.csv"
cp "$work/upgrade.before" "$work/discounted.before"
"$program" upgrade "$work/discounted.before" u1 > "$work/told" || fail "$(cat "$work/told")"
refuse_all discounted 'already 5 s2: 1 records, 2 placeholders' "$step" load "$work/file" sales s2 "$work/discounted.csv"

# A delivery stops at the fault. The same manifest again gives each command its receipt, accepted or already there.
judge_delivery() {
    begins_as_with_ample_memory
    count_fault
    "$program" "$@" > "$work/again" || fail "$where: then $(cat "$work/again")"
    sed 's/^accepted //; s/^already //' "$work/again" > "$work/receipts"
    sed 's/^accepted //' "$work/ample" | cmp -s - "$work/receipts" || fail "$where: then $(cat "$work/again")"
}

printf 'sales,s1,%s\nsales,s2,%s\nproduct,p2,%s\n' "$work/known.csv" "$work/unknown.csv" "$work/second.csv" > "$work/night.csv"
cp "$work/load.before" "$work/delivery.before"
refuse_each delivery "$step" judge_delivery deliver "$work/file" "$work/night.csv"

# Words that read print what ample memory prints, or a beginning of it and the fault's line, a report and a query that line alone.
judge_reading() {
    begins_as_with_ample_memory
    count_fault
    case $1 in
        report | query) [ $answered = 0 ] || [ ! -s "$work/told" ] || fail "$where: $(cat "$work/text")" ;;
    esac
}

cp "$work/late.before" "$work/report.before"
cp "$work/late.before" "$work/query.before"
cp "$work/late.before" "$work/dump.before"
cp "$work/late.before" "$work/check.before"
refuse_each report "$step" judge_reading report "$work/file" product.brand was 2024-01-01 2024-12-31
refuse_each query "$step" judge_reading query "$work/file" 2024-01-01 2024-12-31 product.brand date.month --where customer.tier='(no card)'
refuse_each dump "$step" judge_reading dump "$work/file" product
refuse_each check "$step" judge_reading check "$work/file"

# Another table makes the file larger than the pages that stay in memory at the least. Where one of the others is refused, those stay, and the answer is that of ample memory.
if [ -z "$alone" ] || [ "$alone" = pages ]; then
    restore late
    sqlite3 "$work/file" 'CREATE TABLE other (bytes BLOB); INSERT INTO other VALUES (zeroblob(40000000))'
    "$program" status "$work/file" > "$work/ample" || fail "pages: $(cat "$work/ample")"
    for number in 3000 6000 9000; do
        rm -f "$work/refused"
        LD_PRELOAD="$work/refuse.so" REFUSED_ALLOCATION=$number REFUSED_NOTE="$work/refused" "$program" status "$work/file" > "$work/text" || fail "pages, growth $number refused: $(cat "$work/text")"
        [ -e "$work/refused" ] || fail "pages: no growth $number"
        cmp -s "$work/text" "$work/ample" || fail "pages, growth $number refused: $(cat "$work/text")"
    done
    echo "pages: 3 growths refused, all as with ample memory"
fi

# what words print and their status, in a run that may have so many KB
limited() {
    local limit=$1
    shift
    [ "$limit" -lt 1000000 ] || fail "with $limit KB: $(cat "$work/text")"
    answered=0
    (ulimit -v "$limit" && exec "$program" "$@") > "$work/text" 2> "$work/error" || answered=$?
}

# 5,000 sales, each of another brand and tier
if [ -z "$alone" ] || [ "$alone" = tuples ]; then
    restore load
    awk 'BEGIN { print "id,day,brand"; for (it = 0; it < 100; it++) printf "Q%d,2024-01-01,Brand %d\n", it, it }' > "$work/brands.csv"
    awk 'BEGIN { print "id,day,tier"; for (it = 0; it < 50; it++) printf "D%d,2024-01-01,Tier %d\n", it, it }' > "$work/tiers.csv"
    awk -v "header=$header" 'BEGIN { print header; for (it = 0; it < 5000; it++) printf "T%d,1,2024-06-10,S1,Q%d,D%d,1,10.00,7.00\n", it, it % 100, it / 100 }' > "$work/many.csv"
    printf 'product,q,%s\ncustomer,d,%s\nsales,m,%s\n' "$work/brands.csv" "$work/tiers.csv" "$work/many.csv" > "$work/night.csv"
    "$program" deliver "$work/file" "$work/night.csv" > "$work/told" || fail "tuples: $(cat "$work/told")"
    "$program" query "$work/file" 2024-01-01 2024-12-31 product.brand customer.tier > "$work/ample" || fail "tuples: $(cat "$work/ample")"
    [ "$(wc -l < "$work/ample")" = 5001 ] || fail "tuples: $(wc -l < "$work/ample") lines"
    # some 7 MB are the C library's own, and a run with less is ended, of which the shell tells
    limit=8192 answered=1
    while [ $answered != 0 ]; do
        limit=$((limit + 256))
        limited $limit status "$work/file" 2> "$work/error"
    done
    short=0 stopped=0 answered=1
    while [ $answered != 0 ]; do
        where="tuples, with $limit KB"
        limited $limit query "$work/file" 2024-01-01 2024-12-31 product.brand customer.tier
        [ ! -s "$work/error" ] || fail "$where: $(cat "$work/error")"
        [ $answered = 0 ] || [ "$(wc -l < "$work/text")" = 1 ] || fail "$where: $(cat "$work/text")"
        count_fault
        limit=$((limit + 64))
    done
    [ $short -gt 0 ] || fail "tuples: no E8"
    echo "tuples: $short limits answered with E8, $stopped with E9, and $((limit - 64)) KB as without a limit"
fi
