# Two-phase commits a second of `xatm threads --log` over a new log in a file, with the start of the
# program and the reading of the jobs, beside Bitronix with its journal on the same disk. Both force
# each decision to the disk. Below stands the same with the log in memory, and what the disk alone
# takes, if each write has a decision of each thread.

# rate_of COMMAND..: how many of the jobs a second the command makes, with its start and its end.
rate_of() {
    took=$(micros "$@")
    echo $((jobs * 1000000 / took))
}

# all_committed: stops unless the run that was made last committed all jobs.
all_committed() {
    [ "$(grep -c ' committed$' "$work/printed")" = "$jobs" ] || stop "not all jobs were committed"
}

figures() {
    for threads in 1 2 4 8; do
        mkdir "$work/log"
        ours=$(rate_of crates/xatm/out/xatm threads --log "$work/log/log.db" "$work/$threads.toml")
        all_committed
        rm -r "$work/log"
        echo "threads: $threads|ours|$ours"
    done
    bitronix disk "${BENCH_TRANSACTIONS:-3000}" 1 4 8
    for threads in 1 2 4 8; do
        ours=$(rate_of crates/xatm/out/xatm threads "$work/$threads.toml")
        all_committed
        echo "threads: $threads|ours, log in memory|$ours"
    done
    if [ "$compiled" = 1 ]; then
        rate=$(disk_rate)
        for threads in 1 2 4 8; do echo "threads: $threads|the disk alone|$((threads * rate))"; done
    fi
}

on_disk
build_xatm
. bench/bitronix.sh
compiled=0
if has "the C compiler cc" gcc command -v cc; then compiled=1; fi
jobs=1000
for threads in 1 2 4 8; do
    {
        printf 'threads = %s\nrms = 2\n' "$threads"
        yes '[[job]]
votes = ["ok", "ok"]' | head -n $((2 * jobs))
    } > "$work/$threads.toml"
done
show $((8 + 6 * (sides - 1) + 4 * compiled)) "two-phase commits a second, log in a file"
