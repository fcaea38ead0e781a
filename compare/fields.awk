# SPDX-License-Identifier: Apache-2.0 AND BSD-3-Clause
# The fields of a line, key=value with one space between: for the other programs here, named before them (awk -f fields.awk -f ..).
function read_fields(line, into,    parts, n, i, at) {
    split("", into)
    n = split(line, parts, " ")
    for (i = 1; i <= n; i++) {
        at = index(parts[i], "=")
        into[substr(parts[i], 1, at - 1)] = substr(parts[i], at + 1)
    }
}
