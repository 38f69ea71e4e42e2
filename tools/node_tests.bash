# Runs files of Node's tests, and installs by apt what they need, where that can be. Sourced by parts of tests/clients
# after tools/packages.bash, in the folder of a package; a part ends by end_part.

# What one file of tests may take, in seconds.
most=900

# (Debian's own Node looks there by itself)
NODE_PATH=/usr/share/nodejs${NODE_PATH:+:$NODE_PATH}
export NODE_PATH
room=$(mktemp -d "${TMPDIR:-/tmp}/weblocks-node.XXXXXX")
trap 'rm -rf -- "$room"' EXIT
failed=0 unrun=0

has_node() { node -e 'process.exit(process.versions.node.split(".")[0] >= 18 ? 0 : 1)'; }
has_ws() { node -e 'require("ws")'; }
has_npm() { npm --version; }
has_tsc() { tsc --version; }
has_chromium() { chromium --version; }

# Prints what the tests of a file need, as pairs of a check and Debian's package.
needs_of() {
    echo node:nodejs ws:node-ws
    case $1 in
    *.chromium.test.js) echo chromium:chromium ;;
    *packed.test.js) echo npm:npm tsc:node-typescript ;;
    esac
}

not_run() {
    echo "not run: $1"
    unrun=$((unrun + 1))
}

# Whether all is there that a file needs; else says what isn't.
have_needs() {
    local need
    for need in $(needs_of "$1"); do
        if ! ensure "has_${need%%:*}" "${need#*:}"; then
            not_run "$1: $why_missing"
            return 1
        fi
    done
}

# The numbers of a file's tests, what was skipped, and of those that failed what they said.
report() {
    local file=$1 said=$2 number skipped
    grep -E '^ *# deviates' "$said" | sed -E 's/^ *# /    /'
    # (each on a line of its own, where tests/clients looks for them)
    while IFS= read -r skipped; do
        not_run "$file: ${skipped# }"
    done < <(sed -nE 's/^ *ok [0-9]+ - (.*) # SKIP/\1:/p' "$said")
    for number in tests pass fail; do
        printf '%s %s, ' "$(sed -n "s/^# $number //p" "$said")" "$number"
    done
}

run_file() {
    local file=$1 begun=$SECONDS status=0 said
    said=$room/$(basename "$file").tap
    echo "== $file"
    timeout --kill-after=10 "$most" node --test --test-reporter=tap "$file" >"$said" 2>&1 || status=$?
    report "$file" "$said"
    if ((status)); then
        failed=$((failed + 1))
        echo "FAILED with status $status, $((SECONDS - begun)) s"
        grep -vE '^ *ok |^ *# Subtest|^ *duration_ms|^ *---$|^ *\.\.\.$' "$said"
    else
        echo "passed, $((SECONDS - begun)) s"
    fi
}

# Runs those of these files whose needs are met.
run_files() {
    local file
    for file; do
        if have_needs "$file"; then
            run_file "$file"
        fi
    done
}

# Ends with status 1 where a test failed, and 3 where none did and something wasn't run.
end_part() {
    ((failed)) && exit 1
    ((unrun)) && exit 3
    exit 0
}
