# Installs what tests need and the machine hasn't, by Debian's packages. Sourced by the parts of tests/clients.

# Seconds: for other programs that hold dpkg's lock, for an installation, and between two tries for the lists' lock.
dpkg_lock=600 installing=1200 between=10

as_root() {
    if ((EUID)); then
        sudo -n "$@"
    else
        "$@"
    fi
}

# The lists of packages have a lock of their own, for which apt-get doesn't wait.
update_lists() {
    local try
    for try in 1 2 3 4 5 6; do
        as_root timeout "$installing" apt-get -qq update && return
        sleep "$between"
    done
    return 1
}

install_package() {
    local words=(-o "DPkg::Lock::Timeout=$dpkg_lock" -qq -y --no-install-recommends)
    if ! command -v apt-get; then
        echo "there is no apt-get"
        return 1
    fi
    as_root env DEBIAN_FRONTEND=noninteractive timeout "$installing" apt-get install "${words[@]}" "$1" && return
    update_lists
    as_root env DEBIAN_FRONTEND=noninteractive timeout "$installing" apt-get install "${words[@]}" "$1"
}

# Whether the check passes, once the package was installed where it doesn't. Else why_missing says why not.
ensure() {
    local check=$1 package=$2 said
    "$check" &>/dev/null && return
    if ! said=$(install_package "$package" 2>&1 </dev/null); then
        why_missing="$package can't be installed: ${said##*$'\n'}"
        return 1
    fi
    "$check" &>/dev/null && return
    why_missing="$package is installed, and doesn't serve"
    return 1
}
