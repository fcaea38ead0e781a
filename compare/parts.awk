# SPDX-License-Identifier: Apache-2.0 AND BSD-3-Clause
# Cuts every acknowledged plug of traces whose answers are known:
# awk -v seed=N -v into=FOLDER -f random.awk -f fields.awk -f parts.awk TRACES
# A plug of two blocks or more becomes two to six plugs, cut at random places, asked for in their order or in another. FOLDER gets
# of each trace its new lines (N.in) and the answers that they must have (N.out): each part is acknowledged, the last of them is
# answered as the plug was, and every other line as before (R16).

function trade(of, i, j,    kept) {
    kept = of[i]
    of[i] = of[j]
    of[j] = kept
}

# The blocks from 0 to n - 1 in `count` parts, in the order in which they are asked for: first[] and size[] of each.
function cut(n,    seam, at, i, j) {
    count = 2 + below((n < 6 ? n : 6) - 1)
    for (i = 1; i < count; i++) {
        do at = 1 + below(n - 1); while (at in seam)
        seam[at] = 1
    }
    first[i = 1] = 0
    for (at = 1; at < n; at++)
        if (at in seam) {
            size[i] = at - first[i]
            first[++i] = at
        }
    size[i] = n - first[i]
    if (below(2)) for (; i > 1; i--) {
        j = 1 + below(i)
        trade(first, i, j)
        trade(size, i, j)
    }
}

# What stands in one file of the trace, and in the other.
function say(line, answer) {
    print line >(into "/" traces ".in")
    print answer >(into "/" traces ".out")
}

# Sizes and addresses of blocks are multiples of 4 MiB, which a floating-point number holds exactly far past 2^64.
function plug_in_parts(line, answer,    op, got, plugged, i) {
    read_fields(line, op)
    read_fields(answer, got)
    if (op["op"] != "plug" || op["blocks"] < 2 || got["resp"] != "0") {
        say(line, answer)
        return
    }
    plugs++
    cut(op["blocks"] + 0)
    plugged = got["plugged"] - op["blocks"] * 4194304
    for (i = 1; i <= count; i++) {
        parts++
        plugged += size[i] * 4194304
        say("op=plug addr=" sprintf("%.0f", op["addr"] + first[i] * 4194304) " blocks=" size[i],
            "resp=0 state=0 plugged=" sprintf("%.0f", plugged) " usable=" got["usable"] " why=0")
    }
}

function finish(    i) {
    if (!lines) return
    if (lines != answers) { print "trace " traces + 1 ": " lines " lines and " answers " answers" >"/dev/stderr"; failed = 1; exit 1 }
    traces++
    for (i = 1; i <= lines; i++) plug_in_parts(asked[i], answered[i])
    close(into "/" traces ".in")
    close(into "/" traces ".out")
    lines = answers = 0
}

BEGIN { begin_with(seed) }
/^$/ { finish(); behind = 0; next }
$0 == "--" { behind = 1; next }
behind { answered[++answers] = $0; next }
{ asked[++lines] = $0 }
END {
    if (failed) exit 1
    finish()
    print traces + 0 " traces, " plugs + 0 " plugs in " parts + 0 " parts"
}
