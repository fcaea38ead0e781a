# SPDX-License-Identifier: Apache-2.0 AND BSD-3-Clause
# Save records by docs/RULES.md, R15, and the record's shape (R3): which states have a text, the text, and its reading.
# For the other programs here, named before them (awk -f save.awk -f ..).
# A text is one word: its newlines are /, and a byte that is none of a-z, 0-9, = and , is % and two hexadecimal digits. Blocks are a
# string, a character each, 1 where they are plugged. Numbers are decimal strings, since an awk's own are exact to 2^53 alone.

# "Decimal, without leading zeros", of 64 bits.
function is_number(s) {
    if (s !~ /^(0|[1-9][0-9]*)$/) return 0
    return length(s) < 20 || length(s) == 20 && (s "") <= "18446744073709551615"
}

# A number is divided: `quotient`, where that is below 2^53, and `rest`.
function divide(s, by,    i, now) {
    quotient = rest = 0
    for (i = 1; i <= length(s); i += 5) {
        now = substr(s, i, 5)
        rest = rest * 10 ^ length(now) + now
        quotient = quotient * 10 ^ length(now) + int(rest / by)
        rest %= by
    }
}

# How many blocks a size is: -1 where it is no multiple of 4 MiB.
function blocks_of(size) {
    divide(size, 4194304)
    return rest ? -1 : quotient
}

# "requested, usable and plugged multiples of 4 MiB and at most the region"
function is_size(size, region,    blocks) {
    blocks = blocks_of(size)
    return blocks >= 0 && blocks <= region
}

# "region a positive multiple of twice the alignment, at most 1 TiB", in blocks; the alignment in units of 128 MiB
function is_region(size, alignment,    blocks) {
    blocks = blocks_of(size)
    return blocks > 0 && blocks % (64 * alignment) == 0 && blocks <= 262144
}

# "start not a multiple of the alignment, or start + .. above 2^64 - 1", the other way round; the sum's other part in blocks
function is_start(start, alignment, span) {
    divide(start, 134217728)
    return !rest && quotient % alignment == 0 && quotient + span / 32 < 2 ^ 37
}

# "fields .. of the record shape (alignment 128 MiB, one region)"
function is_shaped(block, start, region, requested, usable, plugged) {
    return block "" == "4194304" && is_region(region, 1) && is_size(requested, blocks_of(region)) \
        && is_size(usable, blocks_of(region)) && is_size(plugged, blocks_of(region)) && is_start(start, 1, blocks_of(region))
}

# "run=first,count for each longest run of plugged blocks, lowest first"; `ones` is how many blocks that are, and `last` one past them
function runs_of(bits,    parts, n, i, at, long, text, out) {
    ones = last = at = 0
    n = split(bits, parts, "0")
    for (i = 1; i <= n; i++) {
        if (long = length(parts[i])) {
            text = text "run=" at "," long "/"
            ones += long
            last = at + long
        }
        at += long + 1
        if (length(text) > 4000) {
            out = out text
            text = ""
        }
    }
    return out text
}

# The text of a state; nothing where the state has none. `bits` are the region's blocks.
function text_of(block, start, region, requested, usable, plugged, bits,    runs) {
    if (!is_shaped(block, start, region, requested, usable, plugged) || length(bits) != blocks_of(region)) return ""
    runs = runs_of(bits)
    if (last > blocks_of(usable)) return ""  # "a run past the usable size"
    if (ones != blocks_of(plugged)) return "" # "a plugged size other than 4 MiB times the blocks"
    return "form=2/start=" start "/region=" region "/requested=" requested "/usable=" usable "/plugged=" plugged "/" runs
}

# So many blocks of one kind.
function row_of(kind, n) {
    if (!(kind in many)) many[kind] = kind kind kind kind kind kind kind kind
    while (length(many[kind]) < n) many[kind] = many[kind] many[kind]
    return substr(many[kind], 1, n)
}

# Reads a text: 0 and `field`, from 1 on, and `read_bits`; or 19 or 18. The lines say a state, at best, and the text is taken if it is
# the text of that state: "One state has one text".
function read_text(text,    line, n, i, key, run, bits, out, at) {
    n = split(text, line, "/")
    if (n > 1 && substr(line[1], 1, 5) == "form=" && is_number(substr(line[1], 6)))
        if (length(line[1]) > 6 || substr(line[1], 6) + 0 > 2) return 19 # "refused by name, as 19, before 18"
    split("start region requested usable plugged", key, " ")
    field[1] = "4194304"
    for (i = 1; i <= 5; i++) {
        if (i + 1 > n || substr(line[i + 1], 1, length(key[i]) + 1) != key[i] "=") return 18
        field[i + 1] = substr(line[i + 1], length(key[i]) + 2)
        if (!is_number(field[i + 1])) return 18
    }
    if (!is_region(field[3], 1)) return 18
    at = 0
    for (i = 7; i < n; i++) {
        if (line[i] !~ /^run=[0-9]+,[0-9]+$/ || length(line[i]) > 18) return 18
        split(substr(line[i], 5), run, ",")
        if (run[1] + 0 < at || run[1] + run[2] > 262144) return 18
        bits = bits row_of(0, run[1] - at) row_of(1, run[2])
        at = run[1] + run[2]
        if (length(bits) > 4000) {
            out = out bits
            bits = ""
        }
    }
    read_bits = out bits
    if (at > blocks_of(field[3])) return 18
    read_bits = read_bits row_of(0, blocks_of(field[3]) - at)
    return text_of(field[1], field[2], field[3], field[4], field[5], field[6], read_bits) == text ? 0 : 18
}
