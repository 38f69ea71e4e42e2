# What the program is built from, and the library and the module beside it, and what is shipped of them. Sourced by
# weblocks, build, test, tools/ship and clients/wasm/build, whose current folder is the top of a checkout when they call
# these functions.

shipped=dist/weblocks-x86_64-linux-gnu
shipped_library=dist/libweblocks-x86_64-linux-gnu.so
shipped_module=dist/weblocks.wasm

# What else than crates the library and the module are built from.
library_parts=(clients/c/build clients/wasm/build clients/wasm/heap.c tools/static_library.bash)

# Sets crates to the program's crate, or the one that is named, and those below it, as crates.txt has them: a line is
# NAME OPTION ..: DEP ..
find_crates() {
    local line name at IFS=$' \t,'
    local -A below=() found=()
    while read -r line || [[ -n $line ]]; do
        line=${line%%#*}
        if [[ $line == [!:]*:* ]]; then
            below[${line%%[$IFS:]*}]=${line#*:}
        fi
    done <crates.txt || return 1
    crates=("${1:-weblocks}")
    for ((at = 0; at < ${#crates[@]}; at++)); do
        for name in ${below[${crates[at]}]-}; do
            # (the others are libraries of the kit)
            if [[ -n ${below[$name]+is} && -z ${found[$name]-} ]]; then
                found[$name]=1
                crates+=("$name")
            fi
        done
    done
}

# Sets places to the files and folders that the program is built from, or the crate that is named.
find_places() {
    local crate part
    find_crates "$@" || return 1
    places=(HANDLES crates.txt)
    for crate in "${crates[@]}"; do
        for part in src specs proofs; do
            if [[ -d crates/$crate/$part ]]; then
                places+=("crates/$crate/$part")
            fi
        done
    done
}

# Prints the SHA-256 of each file whose name, ended by NUL, it is given, and the names, in the order of their bytes.
sum_files() {
    LC_ALL=C sort -z -u | xargs -0 -r sha256sum -z --
}

# Prints the digest of the files in places: of each file's SHA-256 and name.
digest_places() (
    set -o pipefail
    find "${places[@]}" -type f -print0 | sum_files | sha256sum | cut -c 1-64
)

# Prints the digest of all that the program is built from.
digest_sources() (
    find_places && digest_places
)

# Prints the digest of all that the library and the module are built from.
digest_library_sources() (
    find_places wl_c && places+=("${library_parts[@]}") && digest_places
)

digest_file() (
    set -o pipefail
    sha256sum <"$1" | cut -c 1-64
)

# Sets program_built, sources_built, kit_built, library_built, module_built and library_sources_built to what
# dist/BUILT, or the file that is named, says; fails where that isn't its lines. The last three are empty where a
# program alone is shipped.
read_built() {
    local text digest='([0-9a-f]{64})' end=$'\n' beside
    { text=$(<"${1:-dist/BUILT}"); } 2>/dev/null || return 1
    beside="library SHA256 $digest${end}module SHA256 $digest${end}library-sources SHA256 $digest$end"
    [[ $text =~ ^"program SHA256 "$digest$end"sources SHA256 "$digest$end($beside)?"kit "([^$end]+)$ ]] || return 1
    program_built=${BASH_REMATCH[1]} sources_built=${BASH_REMATCH[2]} kit_built=${BASH_REMATCH[7]}
    library_built=${BASH_REMATCH[4]} module_built=${BASH_REMATCH[5]} library_sources_built=${BASH_REMATCH[6]}
}

# Prints the names of the checkout's files, each ended by NUL: those that git knows or would add, or without git all
# but what is made here.
list_checkout() (
    set -o pipefail
    if [[ -e .git ]] && git rev-parse --git-dir >/dev/null 2>&1; then
        git ls-files -z --cached --others --exclude-standard
    else
        find . \( -name .git -o -name .build -o -path './crates/*/out' \) -prune -o -type f -printf '%P\0'
    fi | while IFS= read -r -d '' name; do
        # (one that was removed is still known to git)
        if [[ -f $name ]]; then
            printf '%s\0' "$name"
        fi
    done
)
