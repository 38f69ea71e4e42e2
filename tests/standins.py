"""What stands for the kit and for the program where nothing is to be proved: a command rt, and a program."""

from pathlib import Path

from checkouts import KIT, TOP

# It prints what rt ci prints of the crates of crates.txt, and leaves a program. By the variable RT_DOES:
#   edit   the file RT_EDITS is changed meanwhile
#   fail   a crate isn't proved
#   stop   it refuses to begin
#   hang   it never ends
# RT_NOTES is a folder, where it writes which files it was given, its crates.txt and its process.
RT = f"""#!/usr/bin/env bash
set -eu
if [[ $1 == version ]]; then
    echo '{KIT}'
    exit
fi
[[ $* == ci ]]
find . -type f | LC_ALL=C sort >"$RT_NOTES/files"
cp crates.txt "$RT_NOTES"
echo $$ >"$RT_NOTES/process"
does=${{RT_DOES-}}
if [[ $does == stop ]]; then
    echo 'rt: no check reads odd.rt' >&2
    echo '0 passed, 1 failed'
    exit 2
fi
echo 'rt: wl_number_map is kept: an earlier run on this machine proved the same files over the same libraries'
if [[ $does == edit ]]; then
    echo >>"$RT_EDITS"
fi
for crate in wl_types wl_machine wl_core; do
    printf '%s\\n' "== $crate" 'statements std: modules loaded=5 checked=0' 'logic=proved'
    if [[ $does == fail && $crate == wl_core ]]; then
        echo './proofs/one/Answers.antt:8:13: error: `returns`: expected another type'
        echo "fn wl_core::one: not proved"
        echo "rt: wl_core NOT PROVED"
        echo "rt: wl_index NOT PROVED: its library wl_core failed"
        echo "rt: FAILED: wl_core wl_index"
        echo "2 passed, 2 failed"
        exit 1
    fi
    echo "rt: $crate proved"
done
if [[ $does == hang ]]; then
    exec sleep 1000
fi
mkdir -p crates/weblocks/out
cp "$RT_PROGRAM" crates/weblocks/out/weblocks
echo '17 passed, 0 failed'
"""


def put(file: Path, text: str) -> Path:
    """Writes a command."""
    file.parent.mkdir(parents=True, exist_ok=True)
    file.write_text(text)
    file.chmod(0o755)
    return file


def program_that_says(file: Path, replies: str) -> Path:
    """A program that answers each script by these replies."""
    return put(file, f"#!/bin/sh\n[ \"$1\" = --help ] || cat >/dev/null\ncat <<'END'\n{replies}END\n")


def stand_in(file: Path) -> Path:
    """A program that answers the example as it must be answered."""
    return program_that_says(file, (TOP / "examples/first.expected").read_text())
