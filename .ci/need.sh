# install_package PACKAGE: from Debian's packages; waits for another installation that is under way, and tries three times
install_package() {
    local log try
    log=$(mktemp) || return 1
    for try in 1 2 3; do
        if apt-get update -q >"$log" 2>&1 &&
            apt-get install -q -y --no-install-recommends -o DPkg::Lock::Timeout=300 "$1" >>"$log" 2>&1; then
            rm -f "$log"
            return 0
        fi
        sleep $((5 * try))
    done
    tail -n 5 "$log"
    rm -f "$log"
    return 1
}

# need COMMAND PACKAGE: installs the package where the command is not there
need() {
    command -v "$1" >/dev/null 2>&1 && return 0
    install_package "$2"
    command -v "$1" >/dev/null 2>&1 || { echo "cannot install $2 for $1"; exit 1; }
}
