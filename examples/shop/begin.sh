#!/bin/sh
# begin.sh OLD NEW POLICY: begins the file NEW with the members of OLD, whose policy in force POLICY is.
set -eu
wh init "$2" "$3"
if wh status "$1" | grep -q '^format 2$'; then
    wh upgrade "$2" upgrade
fi
for dimension in product store customer; do
    from=0
    while :; do
        wh records "$1" "$dimension" "$from" > part.csv || { cat part.csv; exit 3; }
        count=$(($(wc -l < part.csv) - 1))
        [ "$count" -gt 0 ] || break
        wh load "$2" "$dimension" "carried-$dimension-$from" part.csv
        from=$((from + count))
    done
done
wh check "$2"
