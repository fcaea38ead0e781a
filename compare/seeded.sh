# SPDX-License-Identifier: Apache-2.0 AND BSD-3-Clause
# The arguments of a command about random traces, [SEED [LINES [PROGRAM [ARG..]]]]: sourced with them, it sets `seed`, `lines` and
# the array `program`, which is the trace program, proved and built where it is not yet, if none is named. `root` is the repository.
# shellcheck shell=bash disable=SC2034,SC2154 # read and set by the command
seed="${1:-1}"
lines="${2:-2000}"
case "$seed,$lines" in
*[!0-9,]* | ,* | *,) echo "usage: bin/$(basename "$0") [SEED [LINES [PROGRAM [ARG..]]]]" >&2; exit 2 ;;
esac
program=("${@:3}")
if [ $# -lt 3 ]; then
    "$root/bin/prove" program trace
    program=("$root/bin/run" "$root/target/bin/trace")
fi
