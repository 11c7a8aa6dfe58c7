#!/bin/sh
# Instructions per input of a port's two engines, by callgrind, averaged over
# the 48 situations of the chart and the inputs of a row.  Each number is the
# difference of two runs of the program port_engines, divided by the inputs
# between them, less the same of rounds without an engine.
#
# Usage: tests/speed/engines.sh PROGRAM OUTPUT-FOLDER

set -eu

program=${1:?usage: engines.sh PROGRAM OUTPUT-FOLDER}
out=${2:?usage: engines.sh PROGRAM OUTPUT-FOLDER}
few=20
many=60
# by the chart, by the rules, by neither; columns; what they are
rows='a A 0 23 all
e E 1 8 line-events
t T 2 1 tick
f F 3 6 features
b B 4 5 change-bits
c C 5 3 configuration,-bus-reset'

mkdir -p "$out"
echo "$rows" | while read -r chart rules neither columns name; do
    for letter in $chart $rules $neither; do
        for rounds in $few $many; do
            echo "$letter $rounds $columns $name"
        done
    done
done > "$out/engine-runs"

# Prints a run's words and its instruction count.
xargs -L 1 -P "$(nproc)" sh -c '
    count=$(head -c "$2" /dev/zero | tr "\0" "$1" |
        valgrind --tool=callgrind --callgrind-out-file=/dev/null "$0" 2>&1 |
        sed -n "s/.*Collected : //p")
    echo "$@" "${count:-failed}"
' "$program" < "$out/engine-runs" > "$out/engine-counts"

awk -v few=$few -v many=$many -v rows="$rows" '
$5 !~ /^[0-9]+$/ { print "no count: " $0; bad = 1; exit }
{ count[$1, $2] = $5 }
function each(letter, columns) {
    return (count[letter, many] - count[letter, few]) / (many - few) / 48 / columns
}
END {
    if (bad) exit 1
    printf "%-26s  %9s %9s %9s\n", "instructions per input", "rules", "chart", "ratio"
    number_of_rows = split(rows, row, "\n")
    for (r = 1; r <= number_of_rows; r++) {
        split(row[r], of, " ")
        without = each(of[3], of[4])
        chart = each(of[1], of[4]) - without
        rules = each(of[2], of[4]) - without
        gsub("-", " ", of[5])
        printf "%-26s  %9.0f %9.0f %9.2f\n", of[5], rules, chart, chart / rules
    }
}' "$out/engine-counts"
