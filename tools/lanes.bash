# How many checks go side by side, by `rt ci` and by what comes behind it. Sourced by test.

# The memory that is to be free for each check, in kB: the greatest was seen to take 5.8 million, most less than half of
# it. (rt reckons with up to twice as much. Where there seems to be no room, a crate with a long chain above it waits
# for crates on which nothing waits.)
check_takes=5000000

# Prints how much memory is free, in kB, under the control group's limit too.
free_memory() {
    local free most held group=/sys/fs/cgroup files
    free=$(sed -n 's/^MemAvailable: *\([0-9]*\) kB$/\1/p' /proc/meminfo)
    for files in 'memory.max memory.current' 'memory/memory.limit_in_bytes memory/memory.usage_in_bytes'; do
        [[ -r $group/${files% *} && -r $group/${files#* } ]] || continue
        most=$(<"$group/${files% *}")
        held=$(<"$group/${files#* }")
        if [[ $most =~ ^[0-9]{1,18}$ ]] && (((most - held) / 1024 < free)); then
            free=$(((most - held) / 1024))
        fi
    done
    echo "${free:-0}"
}

# Has rt check as many crates side by side as there are processors, each by one process, where there is the memory for
# it. It is left to rt where RT_JOBS says how many, and on more than four processors: there the longest chain of crates
# takes longer than the rest, and rt has several processes for a crate that others wait for.
choose_lanes() {
    local processors
    processors=$(nproc)
    if [[ -z ${RT_JOBS-} ]] && ((processors <= 4 && $(free_memory) / check_takes >= processors)); then
        export RT_JOBS=$processors
    fi
}

# Prints how many checks go side by side where it isn't rt that chooses: as many as RT_JOBS says, or else as there are
# processors, as far as there is the memory for it.
count_lanes() {
    local processors lanes
    processors=$(nproc)
    lanes=$(($(free_memory) / check_takes))
    echo "${RT_JOBS:-$((lanes < 1 ? 1 : lanes < processors ? lanes : processors))}"
}
