# Commits a second of the decision log, in a file in memory and on a disk, beside the C library
# sqlite3 with the same rows, and beside a program that does a part of it and of which nothing is
# proved.

# How many transactions are decided, and how often. They aren't done, so their rows stay.
decided=499
times=10

# decided_with OUTCOME FOLDER: the microseconds of as many runs of the scenario, each over a new log
# in the folder.
decided_with() {
    sum=0
    time=1
    while [ "$time" -le "$times" ]; do
        mkdir "$2/logs"
        took=$(micros crates/xatm/out/xatm run --log "$2/logs/log.db" "$work/$1.toml")
        sum=$((sum + took))
        rm -r "$2/logs"
        time=$((time + 1))
    done
    echo "$sum"
}

# ours PLACE FOLDER: how many commits a second the log takes. The same transactions that are rolled
# back write nothing to it: so what they take less is the log's time.
ours() {
    with=$(decided_with commit "$2")
    without=$(decided_with rollback "$2")
    echo "$1|ours|$((decided * times * 1000000 / (with - without)))"
}

# theirs PLACE FOLDER: how many the C library takes there.
theirs() {
    [ "$sides" = 2 ] || return 0
    mkdir "$2/logs"
    echo "$1|sqlite3 in C|$("$work/sqlite3_commits" "$2/logs/log.db")"
    rm -r "$2/logs"
}

figures() {
    if [ "$in_memory" ]; then
        ours "in memory" "$in_memory"
        theirs "in memory" "$in_memory"
    fi
    ours "in a file" "$work"
    theirs "in a file" "$work"
    if [ "$sides" = 2 ]; then
        echo "in a file|the disk alone|$(disk_rate)"
    fi
}

on_disk
build_xatm
in_memory=
count=1
if has "a file system in memory at /dev/shm" mount sh -c 'df -T /dev/shm | grep tmpfs && test -w /dev/shm'; then
    in_memory=$(mktemp -d -p /dev/shm)
    trap 'rm -rf "$work" "$in_memory"' EXIT
    count=2
fi
for outcome in commit rollback; do
    awk -v events=10000 -v undone=1 -v outcome="$outcome" -f bench/scenario.awk > "$work/$outcome.toml"
    crates/xatm/out/xatm run --trace "$work/$outcome.toml" > "$work/printed"
    [ "$(grep -c ' decided$' "$work/printed")" = "$decided" ] || stop "the scenario doesn't decide $decided transactions"
done
if has "the C compiler cc" gcc command -v cc &&
    has "the header sqlite3.h" libsqlite3-dev sh -c 'echo "#include <sqlite3.h>" | cc -E -'; then
    cc -O2 -o "$work/sqlite3_commits" bench/sqlite3_commits.c -lsqlite3
    sides=2
fi
show $((count * sides + sides - 1)) "commits a second"
