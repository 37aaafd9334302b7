#!/usr/bin/env bash
# The archive and the Debian package that tools/package makes of the built program: where PROVED has its lines from; whether each file has its sum; whether
# README.md runs in a folder elsewhere, with an empty environment. Then, in a fresh Debian of the same release that mmdebstrap makes (root alone can), both
# again, without the kit: the package is installed by apt-get, and dpkg takes away all that it brought. Where there can be no such Debian, that is passed over,
# and the script says so. package.sh [PROGRAM]
set -eu
cd "$(dirname "$0")/.."
. tests/lib/packages.sh
program=$(realpath "${1:-${WH:-crates/wh/out/wh}}")
version=$(cat VERSION)
name=wh-$version-x86_64-linux
work=$(mktemp -d)
trap 'rm -rf "$work"' EXIT
passed=0
failed=0

# what was tried, what came, what has to come
same() {
    if [ "$2" = "$3" ]; then
        passed=$((passed + 1))
    else
        failed=$((failed + 1))
        printf '%s: there came\n%s\nand not\n%s\n' "$1" "$2" "$3"
    fi
}

# One version: the changelog's newest, and the program's.
same "the changelog's version" "$(sed -n 's/^## \[\([0-9.]*\)\].*/\1/p' CHANGELOG.md | head -n 1)" "$version"
same "the program's version" "$("$program" --version | cut -d , -f 1)" "wh $version"

# A log as the gate prints it: a crate that is kept, one that is proved, one whose lines belong to what ran beside it, one with such lines in between, one of
# which only the tests are proved, and nothing of the others.
cat > "$work/log" <<'LOG'
== rt ci
rt: wh_day is kept: an earlier run on this machine proved the same files over the same libraries
== wh_policy
logic=not-the-last functions=1
logic=proved functions=2 sum=a
rt: wh_policy proved
== tests/edits.py --rules wh_batch
== wh_batch
logic=proved functions=3 sum=b
rt: wh_batch proved
-- tests/edits.py --rules wh_batch: 1 passed, 0 failed
== wh_history
logic=proved functions=4 sum=c
== nice -n 19 bash tests/queries.sh
-- a row
logic=proved functions=5 sum=d
-- nice -n 19 bash tests/queries.sh: 1 passed, 0 failed
rt: wh_history proved
== wh_rows: its tests
logic=proved functions=6 sum=e
rt: wh_rows: its tests are proved
-- rt ci: 5 passed, 0 failed
LOG
WH=$program tools/package "$work/out" "$work/log" > "$work/answer"
same "the files" "$(ls "$work/out")" "$(printf '%s.tar.gz\nwh_%s_amd64.deb' "$name" "$version")"
mkdir "$work/elsewhere"
tar xzf "$work/out/$name.tar.gz" -C "$work/elsewhere"
cd "$work/elsewhere/$name"
same "the lines of the prover" "$(grep -w -e '^wh_day' -e '^wh_policy' -e '^wh_batch' -e '^wh_history' -e '^wh_rows' -e '^wh_model' PROVED | tr -s ' ')" "$(printf '%s\n' \
    'wh_day no line of the prover, but "rt: wh_day is kept: an earlier run on this machine proved the same files over the same libraries"' \
    'wh_policy logic=proved functions=2 sum=a' 'wh_batch no line' 'wh_history logic=proved functions=4 sum=c' 'wh_rows no line' 'wh_model no line')"
same "the commit" "$(sed -n 's/^commit *//p' PROVED)" "$(git -C "$OLDPWD" log -1 --format='%H, of %cs')"
same "the kit" "$(sed -n 's/^kit *//p' PROVED)" "$(rt version)"
same "the program's sum" "$(grep -c "$(sha256sum < "$program" | cut -d ' ' -f 1)" PROVED)" 1
same "the sums" "$(sha256sum -c --quiet SHA256SUMS 2>&1)" ""
same "the files with a sum" "$(cut -c 67- SHA256SUMS | LC_ALL=C sort)" "$(find . -type f ! -name SHA256SUMS | cut -c 3- | LC_ALL=C sort)"
same "the parts" "$(for part in bin/wh share/man/man1/wh.1 share/bash-completion/completions/wh share/zsh/site-functions/_wh docs/cli.md examples/shop/policy.toml mirror/wh-mirror tools/wh-batches tools/wh-doctor web/wh-web; do [ -s $part ] || echo "$part"; done)" ""
same "what it is linked with" "$(ldd bin/wh | grep 'not found' || true)" ""
same "its symbols" "$(readelf --sections bin/wh | grep -c -e '[.]debug_' -e '[.]symtab' || true)" 0
page=$OLDPWD/tests/lib/page.sh
env -i bash -c '. "$1"; WH=bin/wh run_page README.md' bash "$page" > "$work/page" 2>&1 || true
same "README.md elsewhere" "$(tail -n 1 "$work/page" | sed 's/^[1-9][0-9]* passed/all passed/')" "all passed, 0 failed"
[ "$(tail -n 1 "$work/page" | cut -d ' ' -f 3)" = 0 ] || cat "$work/page"
cd "$OLDPWD"

# no package of what wasn't proved, nor of a program that isn't there
echo "rt: wh_plan NOT PROVED" >> "$work/log"
status=0
WH=$program tools/package "$work/none" "$work/log" > "$work/answer" 2>&1 || status=$?
same "a crate that isn't proved" "$status $(cat "$work/answer") $(ls "$work/none" 2>&1 | wc -l)" "3 failed: the log says: rt: wh_plan NOT PROVED 1"
status=0
WH=$work/nothing tools/package "$work/none" > "$work/answer" 2>&1 || status=$?
same "no program" "$status $(cat "$work/answer")" "3 failed: $work/nothing isn't there: rt ci makes it"

# What runs in the fresh Debian: each line of its answers is what was tried, and what came.
cat > "$work/inside" <<'INSIDE'
set -u
export PATH=/usr/sbin:/usr/bin:/sbin:/bin LC_ALL=C DEBIAN_FRONTEND=noninteractive
cd /try
files() {
    find / -xdev \( -path /proc -o -path /sys -o -path /dev -o -path /run -o -path /tmp -o -path /try -o -path /var/lib/dpkg -o -path /var/lib/apt \
        -o -path /var/cache -o -path /var/log \) -prune -o -print | sort
}
page() {
    (cd "$1" && env -i bash -c '. /try/page.sh; WH=$1 run_page README.md' bash "$2") > /try/told 2>&1
    [ "$(tail -n 1 /try/told | cut -d ' ' -f 3)" = 0 ] && echo right || cat /try/told
}
files > before
tar xzf archive.tar.gz
echo "the kit: $(ls -d /opt/rattle 2>&1)"
echo "the archive: $(page "$(echo wh-*)" bin/wh)"
apt-get install -y ./wh.deb > installed 2>&1 || cat installed
echo "the version: $(wh --version)"
echo "the files: $(dpkg -V wh) $(ls /usr/bin/wh /usr/bin/wh-* | tr '\n' ' ')"
cp -R /usr/share/wh copy
echo "the package: $(page copy /usr/bin/wh)"
dpkg -r wh > removed 2>&1 || cat removed
files > after
echo "what is left: $(diff before after)"
INSIDE

# the answers of a fresh Debian, if there can be one
fresh() {
    local release
    release=$(. /etc/os-release && echo "${VERSION_CODENAME-}")
    if [ "$(id -u)" != 0 ] || [ -z "$release" ]; then
        return 1
    fi
    if ! command -v mmdebstrap > "$work/found"; then
        install_packages --no-install-recommends mmdebstrap || return 1
    fi
    mkdir "$work/try"
    cp "$work/out/$name.tar.gz" "$work/try/archive.tar.gz"
    cp "$work/out/wh_${version}_amd64.deb" "$work/try/wh.deb"
    cp tests/lib/page.sh "$work/inside" "$work/try"
    printf '#!/bin/sh\ncp -R %s/try "$1/try"\nchroot "$1" bash /try/inside > %s/answers\n' "$work" "$work" > "$work/hook"
    chmod +x "$work/hook"
    timeout 600 mmdebstrap --mode=root --variant=apt --include=sqlite3 --customize-hook="$work/hook" "$release" /dev/null > "$work/made" 2>&1
    [ -s "$work/answers" ]
}

if fresh; then
    same "in a fresh Debian" "$(cat "$work/answers")" "$(printf '%s\n' "the kit: ls: cannot access '/opt/rattle': No such file or directory" \
        'the archive: right' "the version: $("$program" --version)" 'the files:  /usr/bin/wh /usr/bin/wh-batches /usr/bin/wh-doctor /usr/bin/wh-mirror /usr/bin/wh-page /usr/bin/wh-web ' 'the package: right' 'what is left: ')"
else
    echo "passed over: mmdebstrap can make no fresh Debian here"
    [ ! -s "$work/made" ] || tail -n 3 "$work/made"
fi

echo "$passed passed, $failed failed"
[ "$failed" = 0 ]
