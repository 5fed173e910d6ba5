# Milliseconds of `xatm run`, with the start of the program and the reading of the file, for
# scenarios of 10,000 events, which is the most that one may have, and of a quarter and a half of
# them.

target=40

# took FILE WORDS..: the milliseconds of a run of the file, over a new log if the words name one.
took() {
    file=$1
    shift
    rm -rf "$work/log"
    mkdir "$work/log"
    time=$(micros crates/xatm/out/xatm run "$@" "$file")
    echo "$((time / 1000)).$((time / 100 % 10))"
}

# grown CASE SHAPE WORDS..: the figures of the three files of a shape. If the first is four times
# the second, a run takes time in the measure of its events.
grown() {
    case=$1
    shape=$2
    shift 2
    for events in 10000 2500 5000; do
        time=$(took "$work/$shape.$events.toml" "$@")
        echo "$case|$events events|$time"
    done
}

figures() {
    time=$(took "$work/calls.10000.toml")
    echo "10,000 events beside the target|xatm run|$time"
    echo "10,000 events beside the target|target|$target"
    grown "xatm run, an entry for each call" calls
    grown "xatm run, an entry for each event" events
    grown "xatm run --trace" calls --trace
    grown "xatm run --log" calls --log "$work/log/log.db"
}

on_disk
build_xatm
for events in 10000 2500 5000; do
    awk -v events="$events" -f bench/scenario.awk > "$work/calls.$events.toml"
    awk -v events="$events" -v single=1 -f bench/scenario.awk > "$work/events.$events.toml"
    for shape in calls events; do
        crates/xatm/out/xatm run --trace "$work/$shape.$events.toml" > "$work/printed"
        [ "$(grep -c '^[0-9]* ' "$work/printed")" = "$events" ] || stop "the scenario doesn't have $events events"
    done
done
show 14 "milliseconds"
