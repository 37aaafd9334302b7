#!/bin/sh
# tell.sh MONTH MANIFEST: delivers MANIFEST to each file of a chain, 2024-01.wh and so on, from MONTH on; to all where MONTH is 0.
set -u
told=0
failed=0
for file in [0-9]*.wh; do
    [ "$(expr "${file%.wh}" '>=' "$1")" = 1 ] || continue
    echo "$file"
    wh deliver "$file" "$2" || failed=1
    told=$((told + 1))
done
[ "$told" -gt 0 ] && [ "$failed" = 0 ]
