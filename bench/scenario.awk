# Writes a scenario of so many events (-v events=10000): two-phase commits at two resource managers, one after the other. Each
# xa_ call is one entry, or three if -v single=1. With -v undone=1 the transactions are decided and no more, to what -v outcome says.

function entry(text) { print "    { " text " }," }

# A call is issued, taken and heard: three events.
function calls(rm, xa, more,   line) {
    line = "thread = 0, rm = " rm
    if (single) {
        entry("do = \"issue\", " line ", xa = \"" xa "\"" more)
        entry("do = \"take\", " line)
        entry("do = \"hear\", " line)
    } else {
        entry("do = \"call\", " line ", xa = \"" xa "\"" more)
    }
    left -= 3
}

function calls_both(xa, more) {
    calls(0, xa, more)
    calls(1, xa, more)
}

BEGIN {
    left = events
    if (!outcome) outcome = "commit"
    print "threads = 1\nrms = 2\nstep = ["
    calls_both("xa_open", "")
    while (left >= (undone ? 20 : 27)) {
        tx = ", tx = \"t" ++count "\""
        entry("do = \"begin\", thread = 0" tx)
        calls_both("xa_start", tx)
        calls_both("xa_end", tx ", flags = [\"TMSUCCESS\"]")
        calls_both("xa_prepare", tx)
        entry("do = \"decide\"" tx ", outcome = \"" outcome "\"")
        left -= 2
        if (undone) continue
        calls_both("xa_commit", tx)
        entry("do = \"done\"" tx)
        left--
    }
    for (; left > 0; left--) entry("do = \"hear\", thread = 0, rm = 0")
    print "]"
}
