#!/bin/sh
# Instructions per call, for the library and for the C in place, by callgrind.
# Each number is the difference of two runs of a loop, divided by the difference
# of their loop counts.  It includes the loop's own few instructions.
#
# Usage: tests/speed/speed.sh LIBRARY OUTPUT-FOLDER
#
# LDLIBS names further libraries that LIBRARY needs.

set -eu

library=${1:?usage: speed.sh LIBRARY OUTPUT-FOLDER}
out=${2:?usage: speed.sh LIBRARY OUTPUT-FOLDER}
root=$(cd "$(dirname "$0")/../.." && pwd)
few=1000
many=3000
sizes='4:2 7:4'
calls='in in-start in-launch in-deliver in-complete
out out-start out-launch out-deliver out-complete
poll status tick why_start why_poll block_add replay_block restore'

mkdir -p "$out"
${CC:-cc} -std=c99 -O2 -Wall -Wextra -Werror -pedantic \
    -I"$root/include" -I"$root/tests/inplace" \
    "$root/tests/speed/speed.c" "$root"/tests/inplace/*.c \
    "$library" ${LDLIBS:-} -o "$out/speed"

for side in library inplace; do
    for size in $sizes; do
        for call in $calls; do
            for loops in $few $many; do
                echo "$side $call ${size%:*} ${size#*:} $loops"
            done
        done
    done
done > "$out/runs"

# Prints a run's words and its instruction count.
xargs -L 1 -P "$(nproc)" sh -c '
    count=$(valgrind --tool=callgrind --callgrind-out-file=/dev/null "$0" "$@" 2>&1 |
        sed -n "s/.*Collected : //p")
    echo "$@" "${count:-failed}"
' "$out/speed" < "$out/runs" > "$out/counts"

awk -v few=$few -v many=$many -v sizes="$sizes" -v calls="$calls" '
$6 !~ /^[0-9]+$/ { print "no count: " $0; bad = 1; exit }
{ count[$1, $2, $3 ":" $4, $5] = $6 }
function each(side, call, size) {
    return (count[side, call, size, many] - count[side, call, size, few]) / (many - few)
}
function net(side, call, size) {
    return each(side, call, size) - (call ~ /-/ ? each(side, "restore", size) : 0)
}
END {
    if (bad) exit 1
    number_of_sizes = split(sizes, size, " ")
    number_of_calls = split(calls, call, /[ \n]+/)
    printf "%-14s", "instructions"
    for (s = 1; s <= number_of_sizes; s++) {
        split(size[s], of, ":")
        printf "  %29s", of[1] " ports, " of[2] " buffers"
    }
    printf "\n%-14s", "per call"
    for (s = 1; s <= number_of_sizes; s++)
        printf "  %9s %9s %9s", "library", "in place", "ratio"
    printf "\n"
    for (c = 1; c <= number_of_calls; c++) {
        if (call[c] == "restore") continue
        printf "%-14s", call[c]
        for (s = 1; s <= number_of_sizes; s++) {
            library = net("library", call[c], size[s])
            inplace = net("inplace", call[c], size[s])
            printf "  %9.0f %9.0f %9.2f", library, inplace, library / inplace
        }
        printf "\n"
    }
    print "in, out: a 64-byte bulk transaction through its four calls; status: GetPortStatus"
    print "why_start: the reason of a start-split, the limit; why_poll: the reason of a poll, its change bits"
    print "block_add: a start-split added to a block with one record; replay_block: ten calls, two transactions IN, a poll and a tick"
}' "$out/counts"
