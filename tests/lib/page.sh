# What the scripts that run a page have in common. It is sourced, at the top of the repository, and then called as `run_page DOCUMENT`.
#
# The page is run with the built program (`rt run` in crates/wh builds it; WH names another), as `wh`, in a folder of its own beside copies of
# examples/ and tools/. In a block of code of no language a line that begins with `$ ` is a command, and the lines up to the next one, or to the end of the
# block, are what it must print. A block of `sql` is handed to the program sqlite3, behind what `wh views` prints, with the file shop.wh of that folder, and a block of `python`
# to Python; either must answer the rows of the last report or query before it, as `label|lines|quantity|amount|cost|margin` with money in hundredths.
# A block of `postgresql` is handed to psql, with the database shop, and must answer the same rows, with money in two decimals.
# The last `rm` that the page's text has in such quotes must take away all that is left in the end.

passed=0
failed=0

# what was run, what it printed, what it must print
compare() {
    if [ "$2" = "$3" ]; then
        passed=$((passed + 1))
    else
        failed=$((failed + 1))
        printf '%s\nprints\n%s\nand not\n%s\n' "$1" "$2" "$3"
    fi
}

# the rows of a report's text
rows_of_report() {
    printf '%s\n' "$1" | sed '1,2d;$d' | awk '{
        label = $0
        sub(/^ *[^ ]+ +[^ ]+ +[^ ]+ +[^ ]+ +[^ ]+  /, "", label)
        for (place = 3; place <= 5; place++) sub(/[.]/, "", $place)
        printf "%s|%d|%d|%d|%d|%d\n", label, $1, $2, $3, $4, $5
    }'
}

# the same rows, whose last three figures have two decimals
in_hundredths() {
    awk -F '|' -v OFS='|' '{
        for (place = NF - 2; place <= NF; place++) { sub(/[.]/, "", $place); $place = sprintf("%d", $place) }
        print
    }'
}

# the rows of a query's text, whose labels have no quotes
rows_of_query() {
    printf '%s\n' "$1" | sed 1d | tr , '|' | in_hundredths
}

# Runs the command that was read, if there is one, and compares.
run_command() {
    local told
    [ -n "$command" ] || return 0
    told=$(bash -c "$command" 2>&1 < /dev/null) || true
    compare "$ $command" "$told" "${lines%$'\n'}"
    case "$command" in
        'wh report '*) rows=$(rows_of_report "$told") ;;
        # the rows of the query before it
        'wh query '*' --table') ;;
        'wh query '*) rows=$(rows_of_query "$told") ;;
    esac
    command=
}

# Runs a block of a language, and compares.
run_block() {
    local told
    case "$1" in
        sql) told=$(sqlite3 -readonly shop.wh "$(wh views shop.wh) $lines" 2>&1 < /dev/null) || true ;;
        python) told=$(python3 -c "$lines" 2>&1 < /dev/null) || true ;;
        postgresql) told=$(psql -d shop -Atq -c "$lines" 2>&1 < /dev/null | in_hundredths) || true ;;
        *) return 0 ;;
    esac
    compare "$lines" "$told" "$rows"
}

# document
run_page() {
    local program document line inside= language= command= lines= rows= before removal=
    program=$(realpath "${WH:-crates/wh/out/wh}")
    document=$(realpath "$1")
    work=$(mktemp -d)
    trap 'rm -rf "$work"' EXIT
    mkdir "$work/bin"
    ln -s "$program" "$work/bin/wh"
    cp -R examples tools "$work"
    export PATH=$work/bin:$PATH
    cd "$work"
    before=$(ls)
    while IFS= read -r line; do
        if [ -z "$inside" ]; then
            case "$line" in
                '```'*)
                    inside=yes
                    language=${line#'```'}
                    lines=
                    ;;
                *'`rm '*)
                    removal=${line##*'`rm '}
                    removal="rm ${removal%%'`'*}"
                    ;;
            esac
        elif [ "$line" = '```' ]; then
            run_command
            run_block "$language"
            inside=
        elif [ -z "$language" ] && [ "${line#'$ '}" != "$line" ]; then
            run_command
            command=${line#'$ '}
            lines=
        else
            lines=$lines$line$'\n'
        fi
    done < "$document"
    [ -z "$inside" ] || { echo "a block of code isn't ended"; failed=$((failed + 1)); }
    [ $((passed + failed)) -gt 0 ] || { echo "nothing to run in $document"; failed=1; }
    compare "$removal leaves" "$(bash -c "$removal" 2>&1; ls)" "$before"
    echo "$passed passed, $failed failed"
    [ "$failed" = 0 ]
}
