# What the scripts that stop the built program have in common: what they make, and how they look at a file. It is sourced, with $work set
# to a folder of the script's own.

fail() {
    echo "$*"
    exit 1
}

# a batch of this kind whose records depend on this number: 300 records of 100 members, on days of three years, or 300 sales to them; `discounted`: those of
# the second format
batch() {
    python3 - "$1" "$2" <<'PYTHON'
import random
import sys

kind, number = sys.argv[1], int(sys.argv[2])
chance = random.Random(number)


def day():
    return f"{chance.randrange(2023, 2026)}-{chance.randrange(1, 13):02}-{chance.randrange(1, 29):02}"


if kind in ("sales", "discounted"):
    print("ticket,line,day,store,product,customer,quantity,amount,cost" + (",discount" if kind == "discounted" else ""))
    for place in range(300):
        card = f"M{chance.randrange(100)}" if place % 2 else ""
        sale = f"T{number}-{place // 3},{place % 3 + 1},{day()},M{chance.randrange(100)},M{chance.randrange(100)},{card},{chance.randrange(9)},{chance.randrange(99)}.5,1.25"
        print(sale + (f",{place % 4}.5" if kind == "discounted" else ""))
    sys.exit()
header = {"product": "description,brand,category,department,launched,supplier", "store": "city", "customer": "tier"}[kind]
print("id,day," + header)
seen = set()
while len(seen) < 300:
    key = (chance.randrange(100), day())
    if key not in seen:
        seen.add(key)
        values = ",".join(f"value {chance.randrange(5)}" for _ in header.split(","))
        print(f"M{key[0]},{key[1]},{values}")
PYTHON
}

# file, what is asked
ask() {
    if command -v sqlite3 > /dev/null; then
        sqlite3 "$1" "$2"
    else
        python3 -c 'import sqlite3, sys
for row in sqlite3.connect(sys.argv[1]).execute(sys.argv[2]): print(*row, sep="|")' "$1" "$2"
    fi
}

# the rows of the ten tables, and of the two that an upgrade adds where they are there
rows() {
    if command -v sqlite3 > /dev/null; then
        sqlite3 "$1" ".dump meta command member change product store customer profile calendar fact fact2 void"
    else
        python3 -c 'import sqlite3, sys
for line in sqlite3.connect(sys.argv[1]).iterdump(): print(line)' "$1"
    fi | LC_ALL=C sort
}

now() {
    date +%s%N
}

# a moment of so many nanoseconds
moment() {
    awk "BEGIN { print $1 * $((RANDOM % 1000)) / 1000 / 1000000000 }"
}
