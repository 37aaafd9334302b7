#!/usr/bin/env bash
# Runs the commands of docs/operations.md with the built program, and compares what each prints with what stands below it there; tests/lib/page.sh says
# how. WH names another program than crates/wh/out/wh.
#
# Before that it runs the page's night, by its line for cron and by its unit of systemd, over a shop with the office's records and the sales of two shops:
# a good night, and then one for each cause for which a part fails. What each shows, its status, what was loaded and which reports there are in the
# morning was worked out by hand.
set -eu
cd "$(dirname "$0")/.."
. tests/lib/page.sh
program=$(realpath "${WH:-crates/wh/out/wh}")
top=$PWD
nights=$(mktemp -d)
trap 'rm -rf "$nights"' EXIT
PATH=$nights/bin:$PATH

# the block of this language in the page that has a line like this one
block() {
    awk -v language="$1" -v line="$2" '
        /^```/ { if (inside && found) { printf "%s", text; exit } inside = ($0 == "```" language); found = 0; text = ""; next }
        inside { text = text $0 "\n"; if ($0 ~ line) found = 1 }' "$top/docs/operations.md"
}

# makes the folder of the shop in its state before the night, with the programs of the page
make_shop() {
    mkdir "$nights/bin" "$nights/made"
    ln -s "$program" "$nights/bin/wh"
    # in the place of the mirror: it says whether it has the lock
    printf '#!/bin/sh\nif flock -n shop.lock true; then echo "no lock"; exit 3; fi\necho mirrored\n%s\n' '[ ! -e no-server ] || { echo "failed: server" >&2; exit 3; }' > "$nights/bin/wh-mirror"
    chmod +x "$nights/bin/wh-mirror"
    cd "$nights/made"
    block sh '^#!/bin/sh$' > night.sh
    chmod +x night.sh
    cp "$top"/examples/shop/{products-1,stores-1,customers-1,sales-1}.csv .
    sed 's/^100/ZH-100/; s/BERN/ZURICH/' sales-1.csv > sales-2.csv
    printf 'product,p1,products-1.csv\nstore,k1,stores-1.csv\ncustomer,c1,customers-1.csv\n' > office.csv
    echo sales,b1,sales-1.csv > bern.csv
    echo sales,z1,sales-2.csv > zurich.csv
    echo date.month,was,2024-01-01,2024-12-31 > morning.csv
    echo yesterday > morning.txt
    wh init shop.wh "$top/examples/shop/policy.toml" > init.log
}

# the words of the line for cron, and those of the unit, in the folder of this night
by_cron() {
    block sh '^15 2 ' | sed 's/^15 2 \* \* \* //; s:/srv/shop:.:'
}

by_systemd() {
    block ini '^ExecStart=' | sed -n 's/^ExecStart=//p'
}

# name, what is changed before the night, status, what it shows, facts, last line of the morning's reports: the night in a folder of its own, as `how` says.
# By cron the status is shown, too.
night() {
    local shown status=0
    rm -rf "$nights/shop"
    cp -R "$nights/made" "$nights/shop"
    cd "$nights/shop"
    eval "$2"
    shown=$(sh -c "$($how | sed "s/-w 3600/-w $wait/")" 2>&1 < /dev/null) || status=$?
    if [ "$how" = by_systemd ]; then
        compare "the status of $1" "$status" "$3"
        compare "what $1 shows" "$shown" "$4"
    else
        compare "what $1 shows" "$shown" "$4$([ "$3" = 0 ] || printf '%s' "${4:+$'\n'}the night ended with status $3")"
    fi
    [ -z "$holder" ] || { kill "$holder" 2> "$nights/killed" || true; wait "$holder" 2> "$nights/killed" || true; holder=; }
    compare "the facts after $1" "$(sqlite3 -readonly shop.wh 'SELECT count(*) FROM fact')" "$5"
    compare "the morning after $1" "$(tail -n 1 morning.txt)" "$6"
}

# what keeps the lock or the file, for so many seconds: its process is `holder`
hold_lock() {
    (flock 9 && exec sleep "$1") 9> shop.lock &
    holder=$!
    while flock -n shop.lock true; do sleep 0.05; done
}

open_file() {
    python3 -c 'import sqlite3, time
base = sqlite3.connect("shop.wh")
base.execute("BEGIN")
base.execute("SELECT count(*) FROM fact").fetchall()
open("is-open", "w").close()
time.sleep(600)' &
    holder=$!
    while [ ! -e is-open ]; do sleep 0.05; done
}

holder=
wait=3600
HEAD=$'report date.month was 2024-01-01 2024-12-31\n   lines   quantity         amount           cost         margin  label'
MONTHS=$'       4         14          24.40          14.60           9.80  2024-01\n       6          8          25.20          15.70           9.50  2024-02'
TEN='      10         22          49.60          30.30          19.30  total'
FIVE='       5         11          24.80          15.15           9.65  total'
make_shop
compare "the night is found" "$(head -n 1 night.sh) $(by_cron | wc -l) $(by_systemd | wc -l)" "#!/bin/sh 1 1"
BROKEN=$'night.sh, zurich:\nrefused: E3 batch, B3 wrong length, record 5'
for how in by_systemd by_cron; do
    wait=3600
    night "a good night" : 0 "" 10 "$TEN"
    compare "the mirror" "$(cat mirror.log)" mirrored
    night "a bad batch" 'sed -i "\$s/,[^,]*\$//" sales-2.csv' 1 "$BROKEN" 5 "$FIVE"
    wait=1
    night "a lock that is kept" 'hold_lock 600' 1 "" 0 yesterday
done
wait=3600
night "a night again" 'flock shop.lock ./night.sh' 0 "" 10 "$TEN"
night "a missing file" 'rm sales-2.csv' 1 $'night.sh, zurich:\nfailed: F1 file, sales-2.csv' 5 "$FIVE"
compare "the shop that was there" "$(cat bern.log)" "accepted 5 b1: 5 records, 1 placeholders"
night "a missing manifest" 'rm bern.csv' 1 $'night.sh, bern:\nfailed: F1 file, bern.csv' 5 "$FIVE"
night "a bad manifest" 'echo sale,z2,sales-2.csv >> zurich.csv' 1 $'night.sh, zurich:\nrefused: M1 bad manifest, record 2' 5 "$FIVE"
night "a report of no attribute" 'echo product.color,was,2024-01-01,2024-12-31 >> morning.csv' 1 \
    $'night.sh, reports:\n'"$HEAD"$'\n'"$MONTHS"$'\n'"$TEN"$'\n\nrefused: G1 no attribute' 10 yesterday
night "a changed fact" 'flock shop.lock ./night.sh; sqlite3 shop.wh "UPDATE fact SET amount = amount + 1 WHERE ticket = 1002"' 1 $'night.sh, check:\nwrong: fact' 10 \
    '      10         22          49.61          30.30          19.31  total'
night "no server" 'touch no-server' 1 $'night.sh, mirror:\nmirrored\nfailed: server' 10 "$TEN"
night "a lock that is given back" 'hold_lock 2' 0 "" 10 "$TEN"
F1='failed: F1 file, shop.wh'
night "a file that is open elsewhere" open_file 1 \
    $'night.sh, office:\n'"$F1"$'\nnight.sh, bern:\n'"$F1"$'\nnight.sh, zurich:\n'"$F1"$'\nnight.sh, check:\n'"$F1"$'\nnight.sh, reports:\n'"$F1" 0 yesterday
# both units are good where systemd can say so
if command -v systemd-analyze > "$nights/found"; then
    for unit in service timer; do
        block ini "^# wh-night.$unit" > "$nights/wh-night.$unit"
    done
    compare "the units" "$(systemd-analyze verify "$nights"/wh-night.{service,timer} 2>&1; echo "status $?")" "status 0"
fi
cd "$top"
rm -rf "$nights"
run_page docs/operations.md
