# SPDX-License-Identifier: Apache-2.0 AND BSD-3-Clause
# Holds what `driver plans` prints against a model of the planner: driver plans <PLANS | awk -f planned.awk
# The model goes by docs/RULES.md, R14 and (a) to (d) of R10, and by trying: it starts at the lowest free block, and takes the
# longest plug that is legal there. 17 is due exactly if no block of the region has a legal plug of one block. Sizes are in blocks.

function has_rest(size) { return index(size, "+") > 0 }

function at_most(size, most) { return !has_rest(size) && size + 0 <= most }

# The record's shape (R3), with alignment 128 MiB and one region. 2^42 blocks are 2^64 bytes.
function shaped() {
    return $1 == "1" && at_most($4, 262144) && $4 > 0 && $4 % 64 == 0 \
        && at_most($7, $4) && at_most($5, $4) && at_most($6, $4) \
        && !has_rest($3) && $3 % 32 == 0 && $3 + $4 < 2 ^ 42
}

# What forbids a plug of n blocks from a block on: (a) to (c) of R10, and the border of (d), here with one region too.
function past_requested(n) { return plugged + n > requested }
function past_usable(first, n) { return first + n > usable }
function meets_plugged(first, n) { return index(substr(bits, first + 1, n), "1") > 0 }
function past_border(first, n) { return int(first / 512) != int((first + n - 1) / 512) }
function legal(first, n) {
    return !past_requested(n) && n > 0 && !past_usable(first, n) && !meets_plugged(first, n) && !past_border(first, n)
}

function due(    region, i, n) {
    if (!shaped()) return "12"
    if (length(bits) < $4) return "11"
    region = $4 + 0
    usable = $5 + 0
    plugged = $6 + 0
    requested = $7 + 0
    for (i = 0; i < region && !legal(i, 1); i++);
    if (i == region) return "17"
    i = index(bits, "0") - 1
    for (n = 1; legal(i, n); n++); # one more than a plug that is not legal is not legal either
    came["requested"] += past_requested(n)
    came["usable"] += past_usable(i, n)
    came["plugged"] += meets_plugged(i, n)
    came["border"] += past_border(i, n)
    return sprintf("%.0f %d", $3 + i, n - 1)
}

NF < 2 { bits = $0; next } # a bitmap, of no byte perhaps
{
    asked++
    split($0, parts, ": ")
    $0 = parts[1]
    answer = due()
    came[answer ~ / / ? "plugs" : answer]++
    if (parts[2] != answer && ++differ <= 10) print "a plan differs: " $0 ": " parts[2] ", not " answer ", with " bits
}
END {
    outcomes = ""
    for (i = split("12 11 17 plugs plugged border usable requested", kind, " "); i > 0; i--) {
        outcomes = " " kind[i] "=" came[kind[i]] + 0 outcomes
        if (!came[kind[i]]) { print "too little was tried: " kind[i]; differ++ }
    }
    print "driver: " asked + 0 " plans against the model:" outcomes "; " differ + 0 " differ"
    exit differ > 0
}
