# SPDX-License-Identifier: Apache-2.0 AND BSD-3-Clause
# Configs and bitmaps to plan on, as `driver plans` reads them: awk -v seed=N -v count=N -f random.awk -f plans.awk
# First all bitmaps of 12 blocks, with every plugged and every requested size up to 13 blocks, and all bitmaps of the 8 blocks about
# a 2 GiB border; then each field of a config at its edges; then `count` random configs with their bitmaps.

# So many blocks, all plugged (1) or all free (0).
function blocks_of(kind, n) {
    while (length(long[kind]) < n) long[kind] = long[kind] long[kind]
    return substr(long[kind], 1, n)
}

# All bitmaps of n blocks, `before` plugged ones in front of them and the usable end behind them, the region's others all free and all
# plugged: with every requested size from `before` to 13 more, and with every plugged size from `before` to `more` more.
function all_bitmaps(n, before, region, more,    others, m, k, bits, plugged, requested) {
    for (others = 0; others < 2; others++)
        for (m = 0; m < 2 ^ n; m++) {
            bits = ""
            for (k = 0; k < n; k++) bits = bits int(m / 2 ^ k) % 2
            print blocks_of(1, before) bits blocks_of(others, region - before - n)
            for (plugged = before; plugged <= before + more; plugged++)
                for (requested = before; requested < before + 14; requested++)
                    print "1 0 1024 " region " " before + n " " plugged " " requested
        }
}

function one_of(words,    word, n) {
    n = split(words, word, " ")
    return word[1 + below(n)]
}

function about(n) {
    n += below(9) - 4
    return n < 0 ? 0 : n
}

# Runs of plugged and of free blocks, many of which end about a border of 512 blocks or the usable end.
function runs(usable,    bits, kind, to) {
    kind = below(2)
    while (length(bits) < region) {
        to = one_of("512 1024 usable any any any any")
        if (to == "usable") to = usable
        if (to == "any") to = length(bits) + one_of("1 1 2 3 8 64 200 513")
        if (below(3)) to = about(to)
        if (to <= length(bits)) continue
        bits = bits blocks_of(kind, to - length(bits))
        kind = 1 - kind
    }
    return substr(bits, 1, region)
}

# Words for the nth field at its edges and past them: a number of 4 MiB, or one with bytes behind a +. 2^42 of them are 2^64 bytes.
function edges_of(n,    rests, i, more) {
    for (i = split("1 4095 65536 2097152 4194303", rests, " "); i > 0; i--) more = more " " field[n] "+" rests[i]
    if (n == 1) return "0 1 2 32 0+4194303" more
    if (n == 2) return "0 1 65535"
    if (n == 3) return "0 1 16 31 32 33 4398046511103 " sprintf("%.0f %.0f", 2 ^ 42 - region, 2 ^ 42 - region - 32) more
    if (n == 4) return "0 1 32 63 64 96 128 262080 262144 262208 4398046511040" more
    return "0 1 " region - 1 " " region " " region + 1 " " region "+1 " region - 1 "+4194303 1073741824" more
}

function print_config() {
    print field[1], field[2], field[3], field[4], field[5], field[6], field[7]
}

# Each field at each of its edges, the others being good, with a bitmap that is long enough, and with one that is too short.
function all_edges(    short, n, i, words, kept) {
    for (short = 0; short < 2; short++)
        for (region = 64; region <= 1024; region += 960) {
            print blocks_of(0, short ? 56 : 262144)
            split("1 0 1024 " region " 40 3 20", field, " ")
            for (n = 1; n <= 7; n++) {
                kept = field[n]
                for (i = split(edges_of(n), words, " "); i > 0; i--) {
                    field[n] = words[i]
                    print_config()
                }
                field[n] = kept
            }
        }
}

function random_plan(    usable, bits, short, n) {
    region = 64 * one_of("1 1 2 8 9 16 16 16 16 24")
    if (!below(400)) region = 262144 # 1 TiB
    usable = one_of("region region 0 12 510 512 514 any any")
    if (usable == "region" || usable + 0 > region) usable = region
    if (usable == "any") usable = below(region + 1)
    bits = runs(usable)

    field[1] = 1
    field[2] = below(65536)
    field[3] = 32 * below(100000)
    field[4] = region
    field[5] = usable
    field[7] = one_of("region region any " below(20))
    if (field[7] == "region") field[7] = region
    if (field[7] == "any") field[7] = below(region + 1)
    field[6] = one_of("set set any " about(field[7]))
    if (field[6] == "set") field[6] = gsub(/1/, "1", bits)
    if (field[6] == "any") field[6] = below(region + 1)
    if (field[6] > region) field[6] = region
    if (!below(5)) field[n = 1 + below(7)] = one_of(edges_of(n))

    # A bitmap that is too short, or longer than is needed.
    short = one_of("0 0 0 0 0 0 0 0 0 0 0 8 " 8 * below(region / 8) " " region)
    print substr(bits, 1, region - short) (short || below(3) ? "" : blocks_of(below(2), 8 * below(4)))
    print_config()
}

BEGIN {
    begin_with(seed)
    long[0] = "00000000"
    long[1] = "11111111"
    all_bitmaps(12, 0, 64, 13)
    all_bitmaps(8, 508, 1024, 0)
    all_edges()
    while (count-- > 0) random_plan()
}
