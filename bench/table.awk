# Prints the lines 'CASE|WHO|FIGURE' of some runs as a table: a row for each who of a case, a column for each run, and the
# middle of them. Below each row of a case but the first stands the first divided by it, run by run, unless it ends in ', cold'.
# If the file `ratios` is named, each of these ratios is added to it too: 'BENCHMARK|CASE|WHO|OURS|THEIRS|RATIO', each the middle.

# 1234567 as 1,234,567; and 12.34 as 12.3.
function shown(figure,   text, groups) {
    if (figure < 999.5) return figure == int(figure) ? figure "" : sprintf("%.1f", figure)
    text = sprintf("%.0f", figure)
    while (length(text) > 3) {
        groups = "," substr(text, length(text) - 2) groups
        text = substr(text, 1, length(text) - 3)
    }
    return text groups
}

function shown_ratio(ratio) {
    return sprintf(ratio < 0.1 ? "%.3f" : ratio < 10 ? "%.2f" : "%.1f", ratio)
}

# Sorts row[1..runs].
function sort_row(   i, j, low) {
    for (i = 1; i <= runs; i++) {
        for (j = i + 1; j <= runs; j++) {
            if (row[j] < row[i]) { low = row[j]; row[j] = row[i]; row[i] = low }
        }
    }
}

# Prints row[1..runs] and the middle of it, returns that, and leaves the row sorted.
function print_row(title, is_ratio,   run, middle) {
    printf "  %-28s", title
    for (run = 1; run <= runs; run++) printf " %11s", is_ratio ? shown_ratio(row[run]) : shown(row[run])
    sort_row()
    middle = row[int((runs + 1) / 2)]
    printf " %11s\n", is_ratio ? shown_ratio(middle) : shown(middle)
    return middle
}

{
    if (!($1 in whos)) cases[++case_count] = $1
    if (!(($1, $2) in seen)) who[$1, ++whos[$1]] = $2
    figure[$1, $2, ++seen[$1, $2]] = $3
    if (seen[$1, $2] > runs) runs = seen[$1, $2]
}

END {
    printf "%-30s", ""
    for (run = 1; run <= runs; run++) printf " %11s", "run " run
    printf " %11s\n", "middle"
    for (at = 1; at <= case_count; at++) {
        name = cases[at]
        print name
        for (w = 1; w <= whos[name]; w++) {
            for (run = 1; run <= runs; run++) row[run] = figure[name, who[name, w], run]
            middle = print_row(who[name, w], 0)
            if (w == 1) ours = middle
            if (w == 1 || who[name, w] ~ /, cold$/) continue
            for (run = 1; run <= runs; run++) row[run] = figure[name, who[name, 1], run] / figure[name, who[name, w], run]
            ratio = print_row("ratio", 1)
            if (ratios) print benchmark "|" name "|" who[name, w] "|" shown(ours) "|" shown(middle) "|" shown_ratio(ratio) >> ratios
        }
    }
}
