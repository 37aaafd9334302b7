# What the scripts that need PostgreSQL have in common. It is sourced, at the top of the repository.

. tests/lib/packages.sh

# Installs Debian's PostgreSQL and its package for Python where they aren't there; fails where that can't be done.
install_postgresql() {
    if ! ls /usr/lib/postgresql/*/bin/initdb > /dev/null 2>&1 || ! /usr/bin/python3 -c 'import psycopg' 2> /dev/null; then
        install_packages postgresql python3-psycopg || return 1
    fi
    postgresql=$(ls -d /usr/lib/postgresql/*/bin | sort -V | tail -n 1)
    PATH=$postgresql:$PATH
}

# PostgreSQL refuses to run as root.
as_server() {
    if [ "$(id -u)" = 0 ]; then
        runuser -u postgres -- "$@"
    else
        "$@"
    fi
}

# Starts a server in a folder that is there: its data in data, its socket in the folder itself. It keeps nothing over a crash of the machine.
start_server() {
    local options="-c listen_addresses= -c unix_socket_directories=$1 -c fsync=off"
    as_server pg_ctl -D "$1/data" -w -s -l "$1/log" -o "$options" start || { cat "$1/log"; return 1; }
}

# Starts so many servers in the folders 1, 2 and so on of a folder.
start_servers() {
    local number
    chmod 711 "$1"
    for number in $(seq "$2"); do
        mkdir "$1/$number"
        if [ "$(id -u)" = 0 ]; then
            chown postgres "$1/$number"
        fi
        if [ "$number" = 1 ]; then
            as_server initdb -D "$1/1/data" -A trust -U postgres -E UTF8 --locale=C.UTF-8 --no-sync > "$1/made" 2>&1 || { cat "$1/made"; return 1; }
        else
            as_server cp -R "$1/1/data" "$1/$number/data"
        fi
    done
    for number in $(seq "$2"); do
        start_server "$1/$number"
    done
}

# Stops the servers of a folder that run.
stop_servers() {
    local data
    for data in "$1"/*/data; do
        [ ! -f "$data/postmaster.pid" ] || as_server pg_ctl -D "$data" -s -m immediate stop || true
    done
}
