#!/usr/bin/env bash
# Two gates side by side, each from nothing, on two processors of its own: what a change takes off.
# usage: bench/gates.sh FOLDER COMMIT COMMIT [MINUTES]
#
# FOLDER gets a clone of each commit, what each keeps of its proofs, and a log. Needs root, for a mount that only the gate sees; four
# processors, 24 GB, and nothing else that works. At the end a line for each: its commit, minutes by the clock, minutes of processor time,
# and what its gate counts. After MINUTES, 600 without a word, a gate is ended; its log tells how far it came.
set -eu
cd "$(dirname "$0")/.."
folder=$1
minutes=${4:-600}
kept=$(dirname "$(dirname "$(readlink -f "$(command -v rt)")")")/../rattle-kept
mkdir -p "$folder" "$kept"

gate() { # COMMIT PROCESSORS
    local tree="$folder/$1"
    git clone -q . "$tree"
    git -C "$tree" checkout -q "$1"
    mkdir -p "$folder/kept-$1"
    unshare -m bash -c '
        mount --bind "$1" "$2"
        cd "$3"
        TIMEFORMAT="%R %U %S"
        { time timeout --signal=INT "${7}m" taskset -c "$4" .ci/run > "$5" 2>&1; } 2> "$6" || true
    ' gate "$folder/kept-$1" "$kept" "$tree" "$2" "$folder/$1.log" "$folder/$1.time" "$minutes"
}

gate "$2" 0,1 &
gate "$3" 2,3 &
wait
for commit in "$2" "$3"; do
    tail -n 1 "$folder/$commit.time" | awk -v commit="$commit" -v said="$(tail -n 1 "$folder/$commit.log")" \
        '{ printf "%s: %.0f minutes, %.0f of processor time; %s\n", commit, $1 / 60, ($2 + $3) / 60, said }'
done
