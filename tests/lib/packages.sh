# Installs packages of Debian for a script that needs them, one script at a time; fails where that can't be done. It is sourced.
install_packages() (
    flock 9
    apt-get update > /dev/null 2>&1 || true
    DEBIAN_FRONTEND=noninteractive apt-get install -y "$@" > /dev/null 2>&1
) 9> "${TMPDIR:-/tmp}/wh-packages.lock"
