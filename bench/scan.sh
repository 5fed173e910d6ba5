# Microseconds that recovery pages take at a resource manager with many branches, and at one with
# few.

figures() {
    crates/benches/out/benches scan time > "$work/ours"
    awk '/ identifiers listed at [0-9]+ branches$/ { branches = $(NF - 1) }
        / microseconds$/ { rows[++count] = "1,000 pages|at " branches " branches|" $1 }
        END { print rows[count]; for (at = 1; at < count; at++) print rows[at] }' "$work/ours"
}

build benches
show 2 "microseconds"
