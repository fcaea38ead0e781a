# SPDX-License-Identifier: Apache-2.0 AND BSD-3-Clause
# What `saves` is to do, a line each: awk -v seed=N -v count=N -f random.awk -f save.awk -f states.awk
# First each field at its edges and every byte of some texts changed, then `count` random states, devices, texts and restores.
# The parts of a line are apart by a tab; texts and blocks are as in save.awk, and words have a space between.
#   old      the six fields, and the old bytes: 0 to 9, e for 128 and f for 255
#   text     a text
#   save     a record's words, and the bitmap's blocks
#   restore  a record's words, the bitmap's blocks, and a text

function one_of(list,    word, n) {
    n = split(list, word, " ")
    return word[1 + below(n)]
}

function chance(percent) { return below(100) < percent }

# So many times 4 MiB, or 128 MiB, and some bytes more or less.
function bytes_in(n, more) { return sprintf("%.0f", n * 4194304 + more) }
function address(n, more,    high, low) {
    low = n % 100000 * 134217728
    high = int(n / 100000) * 134217728 + int(low / 100000)
    low = low % 100000 + more
    if (low < 0) { low += 100000; high-- }
    return high > 0 ? sprintf("%.0f%05.0f", high, low) : sprintf("%.0f", low)
}

# ---- states

# A number that is another, at an edge or past one.
function other(s,    kind) {
    kind = below(9)
    if (kind < 3) return one_of("0 1 2 10 4194303 4194304 4194305 134217728 268435456 1099511627776 1099780063232 4503599627370496")
    if (kind == 3) return one_of("18446744073709551615 18446744073709551616 18446744073575333888 99999999999999999999")
    if (kind == 4) return s one_of("0 1 00")
    if (kind == 5) return substr(s, 1, length(s) - 1) one_of("0 1 3 4 8 9")
    return length(s) < 16 ? sprintf("%.0f", s + one_of("1 4194304 134217728 268435456 8388608")) : s
}

function canonical(s) { return is_number(s) ? s : "18446744073709551615" }

# Blocks of a region of which so many are usable: none, all, single ones, runs, or by chance.
function any_bits(usable,    bits, out, kind, i, n) {
    kind = one_of("none all odd even runs runs runs chance chance ends")
    if (kind == "none") out = row_of(0, usable)
    else if (kind == "all") out = row_of(1, usable)
    else if (kind == "odd" || kind == "even") {
        bits = kind == "odd" ? "01010101" : "10101010"
        for (out = bits; length(out) < usable; out = out out);
    } else if (kind == "ends") out = row_of(1, below(3)) row_of(0, usable) row_of(1, 2)
    else {
        i = below(2)
        while (length(out) + length(bits) < usable) {
            n = kind == "chance" ? 1 : one_of("1 1 2 3 7 8 9 64 " 1 + below(300))
            bits = bits row_of(kind == "chance" ? below(2) : i, n)
            i = 1 - i
            if (length(bits) > 4000) { out = out bits; bits = "" }
        }
        out = out bits
    }
    if (kind == "ends" && length(out) > usable && usable > 4) out = substr(out, 1, usable - 2) "11"
    out = substr(out, 1, usable)
    return out row_of(0, region - usable)
}

# Sets region, in blocks, the fields f[1] to f[6], and `bits`: mostly of a state.
function any_state(    usable, n) {
    region = 64 * one_of("1 1 1 1 2 2 3 4 8 9 16 17")
    if (!below(500)) region = one_of("65536 262144 " 64 * (1 + below(4096)))
    usable = one_of("region region region any any 0 1 " region - 1)
    if (usable == "region") usable = region
    if (usable == "any") usable = below(region + 1)
    bits = any_bits(usable)
    runs_of(bits)
    n = ones
    f[1] = "4194304"
    f[2] = one_of("low low low any top")
    if (f[2] == "low") f[2] = address(32 + below(100))
    if (f[2] == "any") f[2] = address(below(2 ^ 20) * 2 ^ 17 + below(2 ^ 16))
    if (f[2] == "top") f[2] = address(2 ^ 37 - region / 32 - one_of("1 1 2 0"))
    f[3] = bytes_in(region)
    f[4] = bytes_in(one_of(n " 0 " region " " below(region + 1)))
    f[5] = bytes_in(usable)
    f[6] = bytes_in(n)
}

function print_old(    old, at) {
    old = bits
    if (chance(6)) old = substr(old, 1, length(old) - 1)
    if (chance(6)) old = old one_of("0 1 00000000")
    if (chance(2)) old = ""
    if (chance(6) && length(old)) {
        at = 1 + below(length(old))
        old = substr(old, 1, at - 1) one_of("2 3 9 e f") substr(old, at + 1)
    }
    print "old\t" f[1] " " f[2] " " f[3] " " f[4] " " f[5] " " f[6] "\t" old
}

# ---- devices

# The words of a record with these fields: its alignment fits the region and the start, mostly.
function any_record(    n) {
    w[0] = f[1]
    w[1] = one_of("0 0 1 65535")
    w[2] = f[2]
    w[3] = f[3]
    w[4] = f[5]
    w[5] = f[6]
    w[6] = f[4]
    for (n = 1; n < 16 && chance(50) && is_region(f[3], 2 * n) && is_start(f[2], 2 * n, region); n *= 2);
    w[7] = sprintf("%.0f", 134217728 * n)
    w[8] = region > 512 && chance(60) && is_start(f[2], 1, 512 * int((region + 511) / 512)) ? 1 : 0
    w[9] = one_of("4294967296 4294967297")
    w[10] = 1
    w[11] = w[12] = w[13] = w[14] = 0
    length_of_w = 15
}

# A host call that is pending, mostly one of the shape.
function await(    rows) {
    rows = w[8] ? int((region + 511) / 512) : 1
    w[11] = one_of("1 2 3 3 4")
    w[12] = one_of("0 " rows - 1 " " rows " " region - 1 " " region)
    w[13] = one_of("0 1 " rows - 1 " " rows " " region)
    w[14] = one_of("0 0 0 1073741824")
}

# A word that is another.
function spoil(    at) {
    at = below(15)
    w[at] = at ~ /^(1|8|10|11|12|13|14)$/ ? one_of("0 1 2 3 65535 65536 18446744073709551615") : canonical(other(w[at]))
}

function record_words(    i, s) {
    for (i = 0; i < length_of_w; i++) s = s (i ? " " : "") (i < 15 ? w[i] : "77")
    return s
}

# The bitmap of a device, with bits behind the region's blocks, or too few bytes.
function any_bitmap(s) {
    if (chance(5)) return substr(s, 1, 8 * below(length(s) / 8))
    return s (chance(30) ? one_of("11111111 00000000 0110100111111111") : "")
}

function print_save() {
    any_record()
    if (chance(15)) w[10] = 0
    if (chance(5)) await()
    if (chance(8)) w[5] = bytes_in(below(region + 1))
    if (chance(8)) w[4] = bytes_in(below(region + 1))
    if (chance(8)) spoil()
    if (chance(3)) length_of_w = one_of("0 14 16")
    print "save\t" record_words() "\t" any_bitmap(bits)
}

# A text that is laid on a device which is mostly as it must be.
function print_restore(    text, blank, at) {
    text = text_of(f[1], f[2], f[3], f[4], f[5], f[6], bits)
    if (chance(10)) text = changed(text)
    any_record()
    w[4] = bytes_in(blocks_of(f[5]) + below(region - blocks_of(f[5]) + 1))
    w[5] = 0
    w[6] = bytes_in(below(region + 1))
    blank = row_of(0, region)
    if (chance(8)) w[10] = 0
    if (chance(5)) w[5] = bytes_in(1 + below(region))
    if (chance(5)) w[4] = bytes_in(below(region + 1))
    if (chance(3)) w[2] = address(32 + below(200))
    if (chance(3)) w[3] = bytes_in(64 * (1 + below(16)))
    if (chance(8)) {
        at = one_of("1 " region " " 1 + below(region))
        blank = substr(blank, 1, at - 1) "1" substr(blank, at + 1)
    }
    if (chance(5)) await()
    if (chance(8)) spoil()
    if (chance(3)) length_of_w = one_of("0 14 16")
    print "restore\t" record_words() "\t" any_bitmap(blank) "\t" text
}

# ---- texts that are changed

function any_byte() { return one_of("0 1 2 3 9 a e f m r = , / : ; %20 %00 %09 %0d %2e %2f %2b %2d %5f %80 %ff R") }

# The bytes of a text, c[1] on; gives how many.
function take_apart(text,    i, n) {
    for (i = 1; i <= length(text); i++) {
        c[++n] = substr(text, i, 1)
        if (c[n] == "%") {
            c[n] = substr(text, i, 3)
            i += 2
        }
    }
    return n + 0
}

function put_together(from, to,    i, s) {
    for (i = from; i <= to; i++) s = s c[i]
    return s
}

# One to four changes: of bytes, of a line's number, or of lines.
function changed(text,    n, times, at, line, lines, i, s, key) {
    if (length(text) > 4000) { # at one of its ends
        at = chance(70) ? 500 : length(text) - 100
        at += index(substr(text, at), "/") - 1
        return at < 600 ? changed(substr(text, 1, at)) substr(text, at + 1) : substr(text, 1, at) changed(substr(text, at + 1))
    }
    for (times = one_of("1 1 1 2 3 4"); times > 0; times--) {
        if (chance(40)) {
            n = take_apart(text)
            at = 1 + below(n)
            s = one_of("replace replace delete double insert cut")
            text = put_together(1, s == "cut" || s == "double" || s == "insert" ? at : at - 1)
            if (s == "replace" || s == "insert") text = text any_byte()
            if (s == "double") text = text c[at]
            if (s != "cut") text = text put_together(at + 1, n)
            continue
        }
        lines = split(text, line, "/")
        if (lines < 2) continue
        at = 1 + below(chance(50) && lines > 12 ? 12 : lines - 1)
        s = one_of("number number number number delete double swap second later")
        if (s == "number") {
            key = line[at]
            sub(/=.*/, "=", key)
            i = substr(line[at], length(key) + 1)
            if (i ~ /,/) line[at] = key (chance(50) ? other(substr(i, 1, index(i, ",") - 1)) : substr(i, 1, index(i, ",") - 1)) \
                "," (chance(50) ? other(substr(i, index(i, ",") + 1)) : substr(i, index(i, ",") + 1))
            else line[at] = key other(i)
        } else if (s == "second" && line[at] ~ /^run=/) line[at] = line[at] one_of("0 / ,1 1 %20")
        else if (s == "double") line[at] = line[at] "/" line[at]
        else if (s == "later") line[1] = "form=" one_of("0 1 2 3 4 03 +3 10 18446744073709551615 18446744073709551616")
        else if (s == "swap" && at < lines - 1) { i = line[at]; line[at] = line[at + 1]; line[at + 1] = i }
        text = ""
        for (i = 1; i <= lines; i++) if (s != "delete" || i != at) text = text line[i] (i < lines ? "/" : "")
    }
    return text
}

# Every byte of a text replaced by each of some, left out, doubled and changed with the next; and each of its beginnings.
function all_changes(text,    n, i, j, byte, bytes, kept) {
    print "text\t" text
    n = take_apart(text)
    bytes = split("0 1 2 3 4 9 a e f n r = , / : %20 %00 %0d %2f %2b %2d %ff R", byte, " ")
    for (i = 1; i <= n; i++) {
        kept = c[i]
        for (j = 1; j <= bytes; j++) {
            c[i] = byte[j]
            if (c[i] != kept) print "text\t" put_together(1, n)
        }
        c[i] = kept kept
        print "text\t" put_together(1, n)
        c[i] = ""
        print "text\t" put_together(1, n)
        if (i < n) {
            c[i] = c[i + 1] kept
            j = c[i + 1]
            c[i + 1] = ""
            print "text\t" put_together(1, n)
            c[i + 1] = j
        }
        c[i] = kept
        print "text\t" put_together(1, i - 1)
    }
    for (j = 1; j <= bytes; j++) print "text\t" text byte[j]
}

# ---- edges

# The text that these fields and blocks would have, of a state or not.
function text_as(runs) {
    return "form=2/start=" f[2] "/region=" f[3] "/requested=" f[4] "/usable=" f[5] "/plugged=" f[6] "/" runs
}

# Two states of 512 MiB: one with runs, and one with nothing usable.
function good_state(empty) {
    region = 128
    bits = empty ? row_of(0, 128) : row_of(0, 3) row_of(1, 2) row_of(0, 40) row_of(1, 55) row_of(0, 28)
    split(empty ? "4194304 4294967296 536870912 0 0 0" : "4194304 4294967296 536870912 251658240 419430400 239075328", f, " ")
}

# Each field at each of its edges, the others being good: as old bytes, as a text, and saved from a device.
function all_fields(    empty, n, i, all, edge, kept, there) {
    for (empty = 0; empty < 2; empty++)
        for (n = 1; n <= 6; n++) {
            good_state(empty)
            kept = f[n]
            all = "0 1 2 2097152 4194303 4194305 67108864 134217728 134217729 268435456 536870912 541065216 805306368 " \
                "1099511627776 1099780063232 2199023255552 18446744073038462976 18446744073172680704 18446744073575333888 18446744073709551615 " \
                sprintf("%.0f %.0f %.0f %.0f", kept + 1, kept + 4194304, kept > 0 ? kept - 1 : 7, kept > 0 ? kept - 4194304 : 7)
            for (i = split(all, edge, " "); i > 0; i--) {
                f[n] = edge[i]
                there = blocks_of(f[3]) > 0 && blocks_of(f[3]) < 300000 ? quotient : 128
                bits = substr(bits row_of(0, there), 1, there)
                print "old\t" f[1] " " f[2] " " f[3] " " f[4] " " f[5] " " f[6] "\t" bits
                print "text\t" text_as(runs_of(bits))
                any_record()
                print "save\t" record_words() "\t" bits row_of(0, 7 - (length(bits) + 7) % 8)
            }
            good_state(empty)
            for (i = split("18446744073709551616 99999999999999999999 0" kept " " kept "0 +" kept " x", edge, " "); i > 0; i--) {
                f[n] = edge[i] == "x" ? "" : edge[i]
                if (n > 1) print "text\t" text_as(runs_of(bits))
            }
        }
    # Runs of 57 blocks that touch, fall back, are none, or end past the usable size; and other numbers.
    good_state(0)
    all = "3,2/9,0/45,55 3,2/5,0/45,55 3,1/4,1/45,55 3,2/45,55/100,0 45,55/3,2 3,2/46,55 3,57 3,2/45,56 3,2/4,55 0,57 43,57 44,57 71,57 " \
        "3,2/44,1/46,54 3,2/18446744073709551615,1/45,54 3,2/45,55/262144,0 3,2/45,18446744073709551615 03,2/45,55 3,2/45,055 3,2,45,55"
    for (i = split(all, edge, " "); i > 0; i--) {
        gsub(/\//, "/run=", edge[i])
        print "text\t" text_as("run=" edge[i] "/")
    }
    all = f[1] " " f[2] " " f[3] " " f[4] " " f[5] " " f[6] "\t"
    for (n = 0; n <= 130; n++) print "old\t" all substr(bits "00", 1, n)
    for (n = 1; n <= 128; n++) for (i = split("2 3 9 e f", edge, " "); i > 0; i--)
        print "old\t" all substr(bits, 1, n - 1) edge[i] substr(bits, n + 1)
}

# Good and bad texts on a good device and on each of these, with a bitmap that is long enough and one that is too short: word=value,
# from word 0 on, `bit` for a block that is set, and `length` for how many words there are.
function all_restores(    devices, change, n, d, t, i, at, text, blank, short) {
    n = split("0=4194304|10=0|2=4429185024|2=0|3=268435456|3=805306368|4=415236096|4=423624704|4=536870912|4=0|5=4194304|5=239075328|" \
        "bit=0|bit=3|bit=127|11=1|11=2 5=8388608 13=2|11=3 12=127|11=3 12=128|0=2097152|7=268435456|7=1073741824|length=14|length=16",
        devices, "|")
    for (d = 1; d <= n; d++) for (t = 1; t <= 4; t++) for (short = 0; short < 2; short++) {
        good_state(0)
        text = text_as(runs_of(bits))
        if (t == 2) sub(/plugged=/, "plugged=0", text)
        if (t == 3) sub(/form=2/, "form=3", text)
        if (t == 4) sub(/run=.*/, "", text)
        any_record()
        w[5] = w[6] = w[8] = 0
        w[7] = "134217728"
        blank = row_of(0, 200)
        for (i = split(devices[d], change, " "); i > 0; i--) {
            split(change[i], at, "=")
            if (at[1] == "length") length_of_w = at[2]
            else if (at[1] == "bit") blank = substr(blank, 1, at[2]) "1" substr(blank, at[2] + 2)
            else w[at[1]] = at[2]
        }
        blank = short ? substr(blank, 1, 120) : substr(blank, 1, blocks_of(w[3])) "11111111"
        print "restore\t" record_words() "\t" blank "\t" text
        if (t == 1) print "save\t" record_words() "\t" blank
    }
}

BEGIN {
    begin_with(seed)
    all_fields()
    all_restores()
    all_changes("form=2/start=4294967296/region=268435456/requested=16777216/usable=268435456/plugged=12582912/run=1,1/run=6,2/")
    all_changes("form=2/start=0/region=268435456/requested=0/usable=0/plugged=0/")
    all_changes("form=2/start=18446744071427850240/region=2147483648/requested=4194304/usable=2143289344/" \
        "plugged=46137344/run=9,10/run=510,1/")
    all_changes("form=3/anything/")
    all_changes("form=18446744073709551615/")
    while (count-- > 0) {
        any_state()
        if (chance(15)) f[n = 1 + below(6)] = canonical(other(f[n]))
        if (chance(50)) print_old()
        if (chance(50)) print_save()
        any_state()
        if (chance(50)) print_restore()
        if (chance(80)) print "text\t" changed(text_of(f[1], f[2], f[3], f[4], f[5], f[6], bits))
    }
}
