# SPDX-License-Identifier: Apache-2.0 AND BSD-3-Clause
# Random numbers by a seed, for the other programs here, named before them (awk -f random.awk -f ..). The same seed gives the same
# numbers in every awk.
function begin_with(seed,    i) {
    random_at = 1 + seed % 2147483646
    for (i = 0; i < 9; i++) below(2) # neighbouring seeds part
}

# A number below n.
function below(n) {
    random_at = (random_at * 16807) % 2147483647
    return int(random_at / 2147483647 * n)
}
