# SPDX-License-Identifier: Apache-2.0 AND BSD-3-Clause
# Holds what `saves` prints against the model in save.awk: saves <STATES | awk -f save.awk -f saved.awk
# A line is one of states.awk with the number behind it and, where that is 0, what was given.

# The record's shape (R3), over the words as bindings/c/jambcopper.h has them.
function is_record(n,    region, alignment, rows, i) {
    if (n < 15) return 0
    for (i = 1; i <= n; i++) if (!is_number(w[i])) return 0
    alignment = 0
    for (i = 1; i <= 16; i *= 2) if (w[8] "" == sprintf("%.0f", 134217728 * i)) alignment = i
    if (!alignment || w[1] "" != "4194304" || !is_region(w[4], alignment)) return 0
    region = blocks_of(w[4])
    if (!is_size(w[5], region) || !is_size(w[6], region) || !is_size(w[7], region)) return 0
    if (w[9] !~ /^[01]$/ || w[11] !~ /^[01]$/ || length(w[2]) > 5 || w[2] + 0 > 65535) return 0
    if (w[9] && region <= 512) return 0 # "several regions only if the region exceeds 2 GiB"
    rows = w[9] ? int((region + 511) / 512) : 1
    if (!is_start(w[3], alignment, w[9] ? 512 * rows : region)) return 0
    if (w[12] "" == "0") return w[13] "" == "0" && w[14] "" == "0" && w[15] "" == "0"
    # "a pending call's blocks and rows inside the region; a pending unplug (not an unplug-all) at most the plugged size"
    if (length(w[13]) > 7 || length(w[14]) > 7) return 0
    if (w[12] "" == "1") return w[13] + 0 <= w[14] + 0 && w[14] + 0 < rows && w[15] "" == "0"
    if (w[12] "" == "2") return w[13] + w[14] <= region && w[14] + 0 <= blocks_of(w[6])
    return w[12] "" == "3" && w[13] + 0 < region && w[14] "" == "0"
}

# What is refused of a device before anything else: "12, 7, 11"
function refused(bits,    n) {
    n = split($2, w, " ")
    if (!is_record(n)) return 12
    if (w[12] "" != "0") return 7
    return length(bits) < blocks_of(w[4]) ? 11 : 0
}

function due_old(    f, text) {
    split($2, f, " ")
    text = $3 ~ /^[01]*$/ ? text_of(f[1], f[2], f[3], f[4], f[5], f[6], $3) : ""
    return text == "" ? 18 : "0\t" text
}

function due_text(    number) {
    number = read_text($2)
    return number ? number : "0\t" field[1] " " field[2] " " field[3] " " field[4] " " field[5] " " field[6] "\t" read_bits
}

function due_save(    number, text) {
    if (number = refused($3)) return number
    text = text_of(w[1], w[3], w[4], w[7], w[5], w[6], substr($3, 1, blocks_of(w[4])))
    return text == "" ? 18 : "0\t" text
}

# "laid on a placed device (no bit set, plugged 0) of the same start and region, whose usable size is at least the form's, else 18;
# it sets bits, requested and plugged"
function due_restore(    number, region, i, words) {
    if (number = refused($3)) return number
    if (number = read_text($4)) return number
    region = blocks_of(w[4])
    if (!w[11] || index(substr($3, 1, region), "1") || w[6] "" != "0") return 18
    if (w[3] "" != field[2] || w[4] "" != field[3] || blocks_of(w[5]) < blocks_of(field[5])) return 18
    w[7] = field[4]
    w[6] = field[6]
    words = w[1]
    for (i = 2; i in w; i++) words = words " " w[i]
    return "0\t" words "\t" read_bits substr($3, region + 1)
}

function shown(s) { return length(s) > 500 ? substr(s, 1, 500) ".." : s }

BEGIN { FS = "\t" }
{
    at = $1 == "old" || $1 == "save" ? 4 : $1 == "text" ? 3 : 5
    answer = $1 == "old" ? due_old() : $1 == "save" ? due_save() : $1 == "text" ? due_text() : due_restore()
    given = $at
    for (i = at + 1; i <= NF; i++) given = given "\t" $i
    kind = $1 " " answer
    sub(/\t.*/, "", kind)
    came[kind]++
    if (given != answer "" && ++differ <= 10) print "it differs: " shown($0) "\n  not " shown(answer)
}
END {
    n = split("old 0,old 18,text 0,text 18,text 19,save 0,save 12,save 7,save 11,save 18," \
        "restore 0,restore 12,restore 7,restore 11,restore 19,restore 18", kinds, ",")
    for (i = 1; i <= n; i++) {
        split(kinds[i], kind_of, " ")
        outcomes = outcomes (kind_of[1] != before ? (i > 1 ? "; " : " ") kind_of[1] : "") " " kind_of[2] "=" came[kinds[i]] + 0
        before = kind_of[1]
        if (!came[kinds[i]]) { print "too little was tried: " kinds[i]; differ++ }
    }
    print "saves: " NR " lines against the model:" outcomes "; " differ + 0 " differ"
    exit differ > 0
}
