#!/usr/bin/env bash
# The man page and the completions that tools/manual makes of the built program's help. Bash and zsh are asked for completions at a terminal
# (tests/lib/typed.py); `man` and `mandoc` have to find nothing in the page, which has to have each command's usage. A program that is made up here has
# words and options of other forms. What isn't there and can't be installed is passed over, and the script says so. completions.sh [PROGRAM]
set -eu
cd "$(dirname "$0")/.."
. tests/lib/packages.sh
program=$(realpath "${1:-${WH:-crates/wh/out/wh}}")
work=$(mktemp -d)
trap 'rm -rf "$work"' EXIT
passed=0
failed=0

# what was tried, what came, what has to come
same() {
    if [ "$2" = "$3" ]; then
        passed=$((passed + 1))
    else
        failed=$((failed + 1))
        printf '%s: there came\n%s\nand not\n%s\n' "$1" "$2" "$3"
    fi
}

# whether a tool is there, or could be installed from its package
is_there() {
    command -v "$1" > "$work/found" && return
    install_packages --no-install-recommends "$2" && command -v "$1" > "$work/found" && return
    echo "passed over: $1 isn't there, and can't be installed"
    return 1
}

# the words of the help's groups
words() {
    "$1" help | awk '/^Options:/ { exit } /^  [a-z]/ { print $1 }'
}

mkdir "$work/made" "$work/shop"
for kind in man bash zsh; do
    tools/manual $kind "$program" > "$work/made/$kind"
done
mv "$work/made/man" "$work/made/wh.1"
mv "$work/made/bash" "$work/made/wh"
mv "$work/made/zsh" "$work/made/_wh"

# A shop whose newest policy has one attribute more, under a name that an address of a file would read otherwise.
cp -R examples "$work/shop"
(
    cd "$work/shop"
    (sed '/^\[\[holiday/,$d' examples/shop/policy.toml; printf '[[store]]\n  name = "region" # new\n  type = 1\n') > wider.toml
    "$program" init "a%20b#c.wh" examples/shop/policy.toml
    "$program" migrate "a%20b#c.wh" m1 wider.toml
) > "$work/answers"
same "the shop" "$(cat "$work/answers")" "$(printf 'accepted 1 init: 0 records, 0 placeholders\naccepted 2 m1: 0 records, 0 placeholders')"

# what is typed | what the shell then has after `wh`, in any order
CASES="wh che|check
wh |$(words "$program" | tr '\n' ' ')help
wh --ver|--version
wh help ex|help explain
wh init wid|init wider.toml
wh init x exam|init x examples
wh load f |load f product store customer sales void
wh load f sales |load f sales
wh load f sales s1 examples/sa|load f sales s1 examples/sales.csv
wh plan f m|plan f migrate
wh explain f sa|explain f sales
wh explain f in|explain f init
wh explain f init wid|explain f init wider.toml
wh explain f sales examples/la|explain f sales examples/late.csv examples/late.txt
wh dump f fa|dump f fact fact2
wh status a%|status a%20b#c.wh
wh report a%20b#c.wh |report a%20b#c.wh product.description product.brand product.category product.department product.supplier store.city store.region customer.tier customer.age_band date.month date.holiday
wh report a%20b#c.wh st|report a%20b#c.wh store.city store.region
wh report none.wh st|report none.wh store.
wh report f date.m|report f date.month
wh report f date.month |report f date.month was is prior
wh report f date.month was |report f date.month was
wh trial --po|trial --policy
wh trial --policy examples/fl|trial --policy examples/flat.toml
wh trial --policy examples/flat.toml pro|trial --policy examples/flat.toml product
wh trial product examples/vo|trial product examples/voids.csv
wh trial -- s|trial -- store
wh query --wh|query --where
wh query --t|query --table
wh records f |records f product store customer
wh nothing |nothing"

sorted() {
    tr -s '[] ' '\n' | sed 's/^\\//; /^$/d' | LC_ALL=C sort | tr '\n' ' '
}

# shell, completions
ask() {
    local typed wanted
    printf '%s\n' "$CASES" | cut -d '|' -f 1 > "$work/typed"
    (cd "$work/shop" && python3 "$OLDPWD/tests/lib/typed.py" "$1" "$2" < "$work/typed" > "$work/answered") || true
    while IFS='|' read -r typed wanted <&3; do
        read -r answered <&4 || answered="no answer"
        same "$1, '$typed'" "$(printf '%s' "$answered" | sorted)" "$(printf '%s' "$wanted" | sorted)"
    done 3<<< "$CASES" 4< "$work/answered"
}

ask bash "$work/made/wh"
# here zsh offers the options
CASES="wh status f |status f" ask bash "$work/made/wh"
if is_there zsh zsh; then
    ask zsh "$work/made/_wh"
fi

# The page: no warnings, and the usage of each command in one line of it.
if is_there mandoc mandoc; then
    # a page that mandoc doesn't find on this machine is no fault of this one
    same "mandoc" "$(mandoc -Tlint "$work/made/wh.1" 2>&1 | grep -v -e 'mandoc.db' -e 'referenced manual not found' || true)" ""
fi
if is_there man man-db; then
    same "man" "$(LC_ALL=C.UTF-8 man --warnings -E UTF-8 -l "$work/made/wh.1" 2>&1 > "$work/page")" ""
    LC_ALL=C.UTF-8 MANWIDTH=500 man -l "$work/made/wh.1" | col -bx > "$work/page"
    for word in $(words "$program"); do
        options=$("$program" help "$word" | sed -n 's/^ *\(--[a-z]*\) <\([A-Z]*\)>.*/[\1 \2]/p; s/^ *\(--[a-z]*\)  .*/[\1]/p' | paste -sd ' ')
        usage=$("$program" help "$word" | sed -n 's/^Usage: //p' | sed "s/\[OPTIONS\]/$options/; s/>\.\.\./ .../; s/[<>]//g")
        same "the page's usage of $word" "$(grep -c "^ *$(printf '%s' "$usage" | sed 's/[][]/\\&/g')$" "$work/page")" 1
    done
    same "the page's version" "$(grep -c "of wh $(cat VERSION) " "$work/page")" 1
    for status in 0 2 3 4; do
        same "the page's status $status" "$(sed -n '/^EXIT STATUS/,/^[A-Z]/p' "$work/page" | grep -c "^ *$status ")" 1
    done
fi

# A program with a new word, whose last operand may come again, and whose option has a list of values: no file here names it.
cat > "$work/asked" <<'PROGRAM'
#!/bin/sh
case "$*" in
    help) printf 'wh asks.\n\nUsage: wh <COMMAND>\n\nAsk:\n  query  Prints sums\n\nOptions:\n  -h, --help  Print help\n\nExample:\n  wh query shop.wh\n' ;;
    'help query') printf 'Prints sums\n\nUsage: wh query [OPTIONS] <FILE> [COLUMN]...\n\nArguments:\n  <FILE>       the warehouse, a file\n  [COLUMN]...  lines, amount or cost\n\nOptions:\n      --order <ORDER>  up or down\n  -h, --help           Print help\n' ;;
esac
PROGRAM
chmod +x "$work/asked"
tools/manual bash "$work/asked" > "$work/made/wh"
tools/manual zsh "$work/asked" > "$work/made/_wh"
CASES="wh q|query
wh query f l|query f lines
wh query f lines a|query f lines amount
wh query f lines amount c|query f lines amount cost
wh query --order |query --order up down
wh query --order up f a|query --order up f amount
wh load f |load f"
ask bash "$work/made/wh"
if command -v zsh > "$work/found"; then
    ask zsh "$work/made/_wh"
fi
same "the usage of a new word" "$(tools/manual man "$work/asked" | sed -n '/SYNOPSIS/,/DESCRIPTION/p' | tr '\n' ' ')" \
    ".Sh SYNOPSIS .Nm .Cm query .Oo Fl -order Ar ORDER Oc .Ar FILE .Oo Ar COLUMN ... Oc .Sh DESCRIPTION "
# help whose form isn't known, or that says two things of a word, makes no page
sed -i 's/query  Prints sums/query  Prints totals/' "$work/asked"
status=0
tools/manual man "$work/asked" > "$work/page" 2>&1 || status=$?
same "help that differs" "$status $(cat "$work/page")" "3 failed: help and help query differ"

echo "$passed passed, $failed failed"
[ "$failed" = 0 ]
