# SPDX-License-Identifier: Apache-2.0 AND BSD-3-Clause
# Holds a trace's output against a recorded one: awk -f fields.awk -f recorded.awk NAME.qemu OUTPUT
# Every result line (all but want=) must agree in the fields that the recorded line names by cmp=. The reason, why=, is in no recording.

FNR == NR && /^#/ { next } # a request that the recording left out
FNR == NR { recorded[++lines] = $0; next }
/^want=/ { next }
{
    results++
    if (results > lines) { print "more results than recorded"; differ = 1; exit }
    read_fields(recorded[results], qemu)
    read_fields($0, ours)
    n = split(qemu["cmp"], names, ",")
    for (i = 1; i <= n; i++) {
        compared++
        if (qemu[names[i]] != ours[names[i]]) {
            print "result " results ": " names[i] " is " ours[names[i]] ", recorded " qemu[names[i]] ": " recorded[results]
            differ = 1
        }
    }
}
END {
    if (results != lines) { print results + 0 " results, recorded " lines; differ = 1 }
    print results + 0 " results, " compared + 0 " fields" (differ ? ": DIFFERENT" : ": the same")
    exit differ
}
