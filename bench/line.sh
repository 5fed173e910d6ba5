# Calls a second that go over a line and come back answered, beside two rings in C, and beside
# programs that do the same and of which nothing is proved.

# by_place WHO FILE: the figures of a program that tells where its hops were made, and then how many
# they are a second.
by_place() {
    awk -v who="$1" '/ in one thread$/ { place = "in one thread" } / between two threads$/ { place = "between two threads" }
        / a second$/ { print place "|" who "|" $1 }' "$2"
}

# hops WHO COMMAND..: the figures of a command that makes hops.
hops() {
    who=$1
    shift
    "$@" > "$work/hops"
    by_place "$who" "$work/hops"
}

figures() {
    hops ours crates/benches/out/benches line time
    if [ "$sides" = 2 ]; then
        hops "two rings in C" "$work/ring"
        hops "two rings in C, SeqCst" "$work/ring_seq_cst"
    fi
    if [ "$rust" = 1 ]; then hops "two rings in Rust, SeqCst" "$work/ring_rust"; fi
    hops "the crate rtrb alone" crates/benches/out/benches rings time
}

build benches
rust=0
if has "the C compiler cc" gcc command -v cc; then
    cc -O2 -o "$work/ring" bench/ring.c -lpthread
    cc -O2 -DPUBLISHED=memory_order_seq_cst -o "$work/ring_seq_cst" bench/ring.c -lpthread
    sides=2
fi
if has "the Rust compiler rustc" rustc command -v rustc; then
    rustc --edition 2021 -C opt-level=3 -o "$work/ring_rust" bench/ring.rs
    rust=1
fi
show $((2 * (2 * sides + rust))) "calls a second, there and back"
