# What ./test leaves in .build/passed once all its steps but the last have passed, and tools/ship takes from there:
#   weblocks         the program that it built
#   libweblocks.so   the library of clients/c
#   weblocks.wasm    the module of clients/wasm
#   BUILT            what dist/BUILT is to say of them
#   files            the SHA-256 and the name of each file of the checkout, as it was tested
# Sourced by test and tools/ship, behind sources.bash.

passed=.build/passed

# Prints the SHA-256 and the name of each file of the checkout but what is shipped, a file a line.
sum_checkout() (
    set -o pipefail
    list_checkout | { grep -zv '^dist/' || true; } | sum_files | tr '\0' '\n'
)

# Prints the names of the files of which two such sums differ.
name_changed() {
    LC_ALL=C comm -3 <(LC_ALL=C sort <<<"$1") <(LC_ALL=C sort <<<"$2") |
        sed -E 's/^\t?[0-9a-f]{64}  //' | LC_ALL=C sort -u
}

# Records that this program, and the library and the module of this folder, were built of the checkout's files, whose
# sums are given, and that the tests passed on them. The line of rt version comes last.
record_passed() {
    local program=$1 library=$2 files=$3 kit=$4 room
    rm -rf -- "$passed"
    mkdir -p .build
    room=$(mktemp -d .build/passed.XXXXXX)
    cp -- "$program" "$room/weblocks"
    cp -- "$library/libweblocks.so" "$library/weblocks.wasm" "$room"
    printf '%s\n' "$files" >"$room/files"
    {
        echo "program SHA256 $(digest_file "$program")"
        echo "sources SHA256 $(digest_sources)"
        echo "library SHA256 $(digest_file "$library/libweblocks.so")"
        echo "module SHA256 $(digest_file "$library/weblocks.wasm")"
        echo "library-sources SHA256 $(digest_library_sources)"
        echo "kit $kit"
    } >"$room/BUILT"
    mv -- "$room" "$passed"
}
