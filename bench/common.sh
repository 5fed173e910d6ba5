# What the benchmarks share; bench/run reads it first. A benchmark defines figures(), which measures
# once and prints a line 'CASE|WHO|FIGURE' for each figure, and calls show. Ours comes first of
# those of a case, and then what it is divided by.

runs=${BENCH_RUNS:-3}
# 2 if another's program stands beside ours.
sides=1

stop() {
    echo "bench/run: $*" >&2
    exit 2
}

# has WHAT PACKAGE COMMAND..: whether the command goes well. If it doesn't, tells what is missing.
has() {
    what=$1
    package=$2
    shift 2
    if ! "$@" > /dev/null 2>&1; then
        echo "bench/run: $what is missing (of Debian the package $package), so what needs it isn't measured" >&2
        return 1
    fi
}

# sources CRATE: the folders with what the program of a crate is built from, its own and those of
# the crates it rests on.
sources() {
    awk -F: -v crate="$1" '
        function visit(name,   uses, count, i) {
            if ((name in seen) || !(name in all)) return
            seen[name] = 1
            count = split(all[name], uses, " ")
            for (i = 1; i <= count; i++) visit(uses[i])
            print "crates/" name
        }
        !/^#/ { split($1, words, " "); all[words[1]] = $2 }
        END { visit(crate) }
    ' crates.txt
}

# build CRATE: proves and builds its program, if there is none or a source is newer.
build() {
    program=crates/$1/out/$1
    if [ -x "$program" ] && [ -z "$(sources "$1" | xargs -I '{}' find '{}' \( -name out -o -name tests \) -prune \
        -o -type f \( -name '*.rt' -o -name '*.antt' \) -newer "$program" -print)" ]; then
        return 0
    fi
    command -v rt > /dev/null || stop "the command rt of the Rattle toolchain isn't on the PATH"
    echo "bench/run: proving and building $1" >&2
    if ! printed=$(cd "crates/$1" && rt run 2>&1); then
        printf '%s\n' "$printed" >&2
        exit 2
    fi
    touch "$program"
}

# build_xatm: proves and builds the program xatm, if it isn't built. With other words ./xatm may do
# without a proof.
build_xatm() {
    ./xatm --is-built || ./xatm --prove >&2
}

# The temporary folder is to lie on a disk, where a write that is forced costs what it costs.
on_disk() {
    kind=$(df -T "$work" | awk 'NR == 2 { print $2 }')
    case $kind in
        tmpfs | ramfs) stop "the temporary folder $work is in memory ($kind); set TMPDIR to a folder on a disk" ;;
    esac
    echo "files lie in $work, on a file system $kind"
}

# disk_rate: how many commits a second the disk takes, of the bytes that a commit of the log writes
# to its journal, in as many writes. The C compiler has to be there.
disk_rate() {
    [ -x "$work/sync" ] || cc -O2 -o "$work/sync" bench/sync.c
    "$work/sync" "$work/file" 5000 3 5249
}

# micros COMMAND..: the microseconds that a command takes. What it prints goes to $work/printed.
micros() {
    start=$(date +%s%N)
    "$@" > "$work/printed"
    echo $((($(date +%s%N) - start) / 1000))
}

# show COUNT UNIT: measures as often as is wanted, with so many figures each time, and prints them
# side by side.
show() {
    echo "$name: $2; load average $(cut -d ' ' -f 1-3 /proc/loadavg) on $(getconf _NPROCESSORS_ONLN) processors"
    run=1
    while [ "$run" -le "$runs" ]; do
        figures > "$work/figures.$run"
        if [ "$(grep -c '|[0-9.]*[1-9][0-9.]*$' "$work/figures.$run")" != "$1" ]; then
            cat "$work/figures.$run" >&2
            stop "these are not the $1 figures that there should be"
        fi
        run=$((run + 1))
    done
    awk -F '|' -v benchmark="$name" -v ratios="${BENCH_RATIOS:-}" -f bench/table.awk "$work"/figures.*
}

work=$(mktemp -d)
trap 'rm -rf "$work"' EXIT
trap 'exit 1' HUP INT TERM
