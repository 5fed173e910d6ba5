# Two-phase commits a second of worker threads over a log in memory, beside Bitronix without a
# journal. Below stands what the same hops take between threads of a program of which nothing is
# proved, and which does nothing else.

# rates WHO FILE: the figures of a program that tells them by the number of threads.
rates() {
    awk -v who="$1" '/ threads(, log in memory)?: [0-9]+ a second$/ { print "threads: " $1 "|" who "|" $(NF - 2) }' "$2"
}

figures() {
    crates/benches/out/benches workers time > "$work/ours"
    rates ours "$work/ours"
    bitronix null "${BENCH_TRANSACTIONS:-100000}" 1 4
    if [ "$rust" = 1 ]; then
        "$work/jobs" > "$work/hops"
        rates "the hops alone" "$work/hops"
    fi
}

build benches
. bench/bitronix.sh
rust=0
if has "the Rust compiler rustc" rustc command -v rustc; then
    rustc --edition 2021 -C opt-level=3 -o "$work/jobs" bench/jobs.rs
    rust=1
fi
show $((4 * sides + 4 * rust)) "two-phase commits a second, log in memory"
