#!/usr/bin/env bash
# Another program reads what the built program wrote: `sqlite3` finds the file of a made and loaded warehouse whole, with the ten tables,
# the six indexes and the rows that the examples' records and sales define, and after an upgrade with two tables more. read_by_sqlite3.sh [PROGRAM]
set -eu
cd "$(dirname "$0")/.."
program=$(realpath "${1:-${WH:-crates/wh/out/wh}}")
work=$(mktemp -d)
trap 'rm -rf "$work"' EXIT
file=$work/shop.wh
failed=0

# what was asked, what sqlite3 answers, what it has to be
same() {
    [ "$2" = "$3" ] && return
    printf '%s: sqlite3 answers\n%s\nand not\n%s\n' "$1" "$2" "$3"
    failed=1
}

# name, question, what the answer has to be
asks() {
    same "$1" "$(sqlite3 "$file" "$2")" "$3"
}

names() {
    sqlite3 "$file" "SELECT name FROM sqlite_master WHERE type = '$1' AND name NOT LIKE 'sqlite_%' ORDER BY name"
}

"$program" init "$file" examples/flat.toml > "$work/told"
"$program" load "$file" product p1 examples/late.csv > "$work/told"
"$program" load "$file" sales s1 examples/sales.csv > "$work/told"
asks integrity 'PRAGMA integrity_check' ok
same tables "$(names table)" "$(printf 'calendar\nchange\ncommand\ncustomer\nfact\nmember\nmeta\nproduct\nprofile\nstore')"
same indexes "$(names index)" "$(printf 'change_by_anchor\nchange_by_member\ncustomer_by_durable\nproduct_by_durable\nprofile_by_values\nstore_by_durable')"
asks meta 'SELECT name, value FROM meta ORDER BY name' "$(printf 'changes_max|1000000\ncommands_max|100000\nfacts_max|1000000\nformat|1')"
asks commands 'SELECT number, id, kind, records, placeholders FROM command' "$(printf '1|init|init|0|0\n2|p1|product|3|0\n3|s1|sales|2|1')"
asks 'the bytes of a batch' "SELECT writefile('$work/bytes', bytes) FROM command WHERE id = 'p1'" "$(wc -c < examples/late.csv)"
cmp -s "$work/bytes" examples/late.csv || { echo "the bytes of a batch differ"; failed=1; }
tail -n +2 examples/late.txt > "$work/rows"
asks 'products, as the trial prints them' 'SELECT * FROM product ORDER BY surrogate' "$(tr , '|' < "$work/rows")"
asks 'facts without a row of their day' 'SELECT count(*) FROM fact LEFT JOIN product ON product.surrogate = fact.product_key AND product.durable = fact.product_durable AND fact.day BETWEEN from_day AND to_day WHERE product.surrogate IS NULL' 0
asks 'products by an index' 'SELECT count(*) FROM product INDEXED BY product_by_durable WHERE durable = 1' "$(sqlite3 "$file" 'SELECT count(*) FROM product NOT INDEXED WHERE durable = 1')"
asks facts 'SELECT count(*) FROM fact' 2

# An upgrade carries the facts into the second table, each with no discount.
before=$(sqlite3 "$file" 'SELECT *, 0 FROM fact ORDER BY ticket, line')
"$program" upgrade "$file" u1 > "$work/told"
printf 'ticket,line,day,store,product,customer,quantity,amount,cost,discount\nD1,1,2024-03-05,S1,P1,,1,2.50,1.60,0.25\n' > "$work/sales.csv"
asks 'integrity after an upgrade' 'PRAGMA integrity_check' ok
same 'tables after an upgrade' "$(names table)" "$(printf 'calendar\nchange\ncommand\ncustomer\nfact\nfact2\nmember\nmeta\nproduct\nprofile\nstore\nvoid')"
same 'indexes after an upgrade' "$(names index)" "$(printf 'change_by_anchor\nchange_by_member\ncustomer_by_durable\nproduct_by_durable\nprofile_by_values\nstore_by_durable')"
asks 'the format' "SELECT value FROM meta WHERE name = 'format'" 2
asks 'the upgrade' 'SELECT number, id, kind, length(bytes), typeof(bytes), records, placeholders FROM command WHERE number = 4' '4|u1|upgrade|0|blob|0|0'
asks 'no fact in the first table' 'SELECT count(*) FROM fact' 0
asks 'the facts in the second table' 'SELECT * FROM fact2 ORDER BY ticket, line' "$before"
"$program" load "$file" sales s2 "$work/sales.csv" > "$work/told"
asks 'a discount' "SELECT discount FROM fact2 WHERE ticket = 'D1'" 25
asks 'integrity after a sale with a discount' 'PRAGMA integrity_check' ok
[ $failed = 0 ] || exit 1
echo "sqlite3 reads what the program wrote: ok"
