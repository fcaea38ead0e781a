# SPDX-License-Identifier: Apache-2.0 AND BSD-3-Clause
# A random trace whose host often fails: awk -v seed=N -v lines=N -f random.awk -f failing.awk
# The device has one region of 64 blocks where the seed is odd, and two map regions of 512 blocks, used around their border, where
# it is even. Nothing is known of the answers, so many lines are refused: requests while the host is asked, and answers that nobody
# waits for.

function say(line) {
    print line
    said++
}

function request(op, most) {
    say("op=" op " addr=" sprintf("%.0f", 4294967296 + (first + below(64)) * 4194304) " blocks=" (1 + below(most)))
}

function answer() {
    say("op=host ok=" (below(100) < 88) " addr=0")
}

BEGIN {
    begin_with(seed)
    several = seed % 2 == 0
    first = several ? 480 : 0
    say("capacity_mib=" (several ? 4096 : 256) " requested_mib=" (several ? 4096 : 96) " multi=" several " node=none boot=1073741824 addr=4294967296 slot=1")
    say("op=host ok=1 addr=140737488355328")
    while (said < lines) {
        kind = below(100)
        if (kind < 50) request("plug", 6)
        else if (kind < 65) { request("unplug", 3); if (below(10)) answer() }
        else if (kind < 80) request("state", 1)
        else if (kind < 88) { say("op=unplug_all"); for (n = below(24); n > 0; n--) answer() }
        else if (kind < 96) answer()
        else say("op=size mib=" 4 * (several ? 512 + below(512) : below(33)))
    }
}
