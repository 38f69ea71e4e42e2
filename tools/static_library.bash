# Builds the static library of the crate in the current folder. Sourced by clients/c/build and clients/wasm/build.

# Whether the libraries that this crate stands on are those that `rt ci` has proved and left in crates/*/out, all of
# them. (Where rt built one for another command, a stamp lies beside it.)
are_left_by_gate() {
    local name
    for name in "${crates[@]:1}"; do
        [[ -f ../$name/out/rlib/$name.rlib/format && ! -e ../$name/out/rlib/stamp ]] || return 1
    done
}

# build_static FILE TOOLCHAIN WORD ..: has the prover check the crate over these libraries as they stand, and build it
# by this toolchain, as `rt lib` would have it do. What it proved is kept in out/incremental, and taken over from there.
# Wants find_crates of tools/sources.bash to have named the crates, this one first, and the kit's folder in kit.
build_static() {
    local file=$1 toolchain=$2 crate=${crates[0]} name place words
    shift 2
    words=(--crate-name "$crate" --crate-type staticlib --links "$crate=" --toolchain "$toolchain" --backend llvm)
    words+=(--antt-project "$kit/rattle/logic/antt-project.json" --logic-built "$kit/logic_built")
    words+=(--incremental out/incremental -L "dependency=$kit/rlibs")
    for name in "${crates[@]:1}"; do
        words+=(-L "dependency=../$name/out/rlib")
    done
    for name in std $(sed -n "s/^$crate [^:]*://p" ../../crates.txt); do
        place=../$name/out/rlib/$name.rlib
        [[ -d $place ]] || place=$kit/rlibs/$name.rlib
        words+=(--extern "$name=$place")
    done
    "$kit/bin/rattle" build "${words[@]}" "$@" -o "$file" src/lib.rt
}
