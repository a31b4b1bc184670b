# What ./ramp, ./try, ./install and ./test share: the program's crates, whether a program has to be built again, and what a build needs.

top=$(dirname "$(dirname "$(readlink -f "${BASH_SOURCE[0]}")")")

# The crates of the program, each after those that it stands on.
crates_in_order() {
    awk -F: '
        !/^#/ && NF > 1 { split($1, name, " "); below[name[1]] = $2 }
        function visit(crate, count, i, deps) {
            if (crate in seen || !(crate in below)) return
            seen[crate] = 1
            count = split(below[crate], deps, " ")
            for (i = 1; i <= count; i++) visit(deps[i])
            print crate
        }
        END { visit("ramp") }' "$top/crates.txt"
}

# Whether the program $1 is missing or older than a source of one of its crates.
is_stale() {
    local -a crates
    mapfile -t crates < <(crates_in_order)
    [ ! -x "$1" ] || [ -n "$(find "${crates[@]/#/$top/crates/}" "$top/crates.txt" -name out -prune -o -type f -newer "$1" \
        \( -path '*/src/*.rt' -o -path '*/specs/*.antt' -o -path '*/proofs/*.antt' -o -name crates.txt \) -print -quit)" ]
}

# Says in one sentence why there is no program, and exits with the status for that.
give_up() {
    echo "${0##*/}: $1" >&2
    exit 125
}

# Gives up where a command of these names is missing.
need_commands() {
    local name
    for name; do
        command -v "$name" >/dev/null && continue
        case $name in
            rt) give_up 'rt, the toolchain of Rattle, is not in PATH; it builds the program, and one that is installed needs it no more' ;;
            *) give_up "$name is not in PATH, and the build needs it" ;;
        esac
    done
}

# Makes this folder, and gives up where it cannot be written.
need_folder() {
    local trial=$1/.trial-$$ said
    said=$({ mkdir -p "$1" && echo trial >"$trial" && rm "$trial"; } 2>&1) && return
    rm -f "$trial" 2>/dev/null
    give_up "$1 cannot be written (${said##*: }); build in a copy of this tree that can, and ./install PREFIX from there"
}

# Says where a program lies that is there, but older than a source: it runs as it is, without a build.
tell_of_older() {
    if [ -x "$1" ]; then
        echo "${0##*/}: the previous build still runs as ${1#"$top/"}; one that ./install has put elsewhere is never built again" >&2
    fi
}

# How many proofs may run at a time: one for each processor, and for each 3 GB of free memory. Says so where memory decides.
proofs_at_a_time() {
    local processors free
    processors=$(nproc)
    free=$(awk '/^MemAvailable:/ { print int($2 / 1000000) }' /proc/meminfo)
    if [ $((free / 3)) -lt "$processors" ]; then
        echo "${0##*/}: $((free / 3 > 1 ? free / 3 : 1)) of $processors processors prove at a time, since $free GB of memory are free and a proof takes up to 4 GB" >&2
        processors=$((free / 3 > 1 ? free / 3 : 1))
    fi
    echo "$processors"
}
