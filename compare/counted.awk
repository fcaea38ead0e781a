# SPDX-License-Identifier: Apache-2.0 AND BSD-3-Clause
# Counts the plugged blocks of a trace by its events, and holds the count against what was printed:
# awk -f fields.awk -f counted.awk INPUT OUTPUT
# It knows no device, only the lines: an acknowledged plug, an acknowledged unplug, and each discard of an unplug-all that the host
# granted and that was not refused. After every line that prints it, `plugged=` must be 4 MiB times the blocks, a state must be the
# block's, NACK must be given exactly if the blocks and those asked for are more than the requested size, and the reason must be the
# first of those that such a trace can bring about: 6, 7, 8 and 11.

function mark(first, count, is_plugged,    i) {
    for (i = first; i < first + count; i++) {
        if (is_plugged) plugged[i] = 1
        else delete plugged[i]
    }
}

function wrong(what) {
    if (++differ <= 10) print "line " lines ": " what ": " line[lines] " -> " $0
}

function hold(what, given, due) {
    held++
    if (given + 0 != due + 0) wrong(what " is " given ", not " sprintf("%.0f", due))
}

# Why a request is ERROR, or 0: its end past the usable end, a block in the wrong state, a 2 GiB border of several regions crossed.
function reason(op, from, blocks, usable,    i) {
    if (op == "unplug_all") return 0
    if (from + blocks > usable) return 6
    if (op == "state") return 0
    for (i = from; i < from + blocks; i++) if ((i in plugged) == (op == "plug")) return 7
    return several && int(from / 512) != int((from + blocks - 1) / 512) ? 8 : 0
}

FNR == NR { line[FNR] = $0; given = FNR; next }
{
    lines++
    read_fields(line[lines], asks)
    read_fields($0, says)
    if (lines == 1) { start = asks["addr"]; several = asks["multi"] + 0 }
    if ("refuse" in says) { refused++; next }
    if ("requested" in says) requested = says["requested"] + 0
    first = (asks["addr"] - start) / 4194304

    # What the host granted is done, before what the answer says.
    if (asks["op"] == "host" && asks["ok"] == "1" && open != "") { mark(block, blocks, 0); cleared++ }
    count = 0
    for (i in plugged) count++

    if (says["want"] == "discard") {
        if (asks["op"] != "host") open = asks["op"]
        block = says["offset"] / 4194304
        blocks = says["size"] / 4194304
        next
    }
    if (!("resp" in says)) next
    nack = asks["op"] == "plug" && (count + asks["blocks"]) * 4194304 > requested
    if (asks["op"] == "host") why = asks["ok"] == "1" ? 0 : 11
    else why = nack ? 0 : reason(asks["op"], first, asks["blocks"], says["usable"] / 4194304)
    hold("why", says["why"], why)
    whys[why]++
    if (asks["op"] == "plug") {
        hold("NACK", says["resp"] == 1, nack)
        if (says["resp"] == 0) { mark(first, asks["blocks"], 1); count += asks["blocks"]; again += after_refusal }
    }
    if (asks["op"] == "state") hold("the state", says["state"], !(first in plugged))
    if (asks["op"] == "unplug_all" || (asks["op"] == "host" && open == "unplug_all")) {
        if (says["resp"] == 0) { acknowledged++; hold("what an unplug-all left", count, 0) }
        else if (cleared) { half++; after_refusal = 1 }
    }
    hold("plugged", says["plugged"], count * 4194304)
    open = ""
    cleared = 0
}
END {
    if (lines != given) { print lines + 0 " of " given " lines are answered"; differ = 1 }
    if (!half || !again || !acknowledged || !whys[6 + 2 * several] || !whys[7] || !whys[11]) { print "too little was tried"; differ = 1 }
    print lines + 0 " lines, " refused + 0 " refused; " acknowledged + 0 " unplug-alls done, " half + 0 " refused after some blocks, " \
        again + 0 " plugs acknowledged after such a one; " held + 0 " numbers held against the count" (differ ? ": DIFFERENT" : ": the same")
    exit differ > 0
}
