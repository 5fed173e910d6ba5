# Steps a second of a system with many transactions, beside one with few. Below stands how many
# identifiers a second the ordered map finds on which the manager's transactions and branches stand.

# beside WHAT FILE: the figures that a program tells by what stands beside; the last one first.
beside() {
    awk -v what="$1" '/ beside [0-9]+ (transactions|others)$/ { beside = $(NF - 1) " " $NF }
        / (steps|identifiers) a second$/ { rows[++count] = what "|beside " beside "|" $1 }
        END { print rows[count]; for (at = 1; at < count; at++) print rows[at] }' "$2"
}

figures() {
    crates/benches/out/benches steps time > "$work/ours"
    beside "two-phase commits" "$work/ours"
    crates/benches/out/benches maps time > "$work/maps"
    beside "the map alone" "$work/maps"
}

build benches
show 6 "steps a second, and identifiers that the map finds a second"
