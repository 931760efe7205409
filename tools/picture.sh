#!/usr/bin/env bash
# Draws the table that tools/beside.sh printed, as an SVG on standard output: a panel for each log, with the best times by workers.
#
#   picture.sh <output of beside.sh>
#
# Needs gnuplot.
set -euo pipefail

[ $# = 1 ] && [ -r "$1" ] || { sed -n '4p' "$0" | sed 's/^# */usage: /' >&2; exit 2; }
room=$(mktemp -d)
trap 'rm -rf "$room"' EXIT

# Makes a file for each log, with lines `workers here raft-engine`, of rows `| log | workers | best, median ms | best, median ms | ..`.
awk -F '|' -v room="$room" '
    $3 ~ /^ *[0-9]+ *$/ {
        gsub(/ /, "", $2); gsub(/ /, "", $3); split($4, here, ","); split($5, there, ",")
        print $3, here[1] + 0, there[1] + 0 > room "/" $2
    }' "$1"
logs=("$room"/*)
[ -e "${logs[0]}" ] || { echo "picture.sh: no rows in $1" >&2; exit 1; }

{
    echo "set terminal svg size $((320 * ${#logs[@]})),300 font 'sans-serif,12' background 'white'"
    echo "set multiplot layout 1,${#logs[@]}"
    echo "set xlabel 'workers'; set ylabel 'ms (best)'; set yrange [0:*]; set offsets 0.3,0.3,0,0; set grid ytics; set key bottom left"
    for log in "${logs[@]}"; do
        echo "set title '${log##*/}'"
        echo "plot '$log' using 0:2:xtic(1) with linespoints pt 7 lw 2 title 'here', '$log' using 0:3 with linespoints pt 5 lw 2 title 'raft-engine'"
    done
    echo "unset multiplot"
} | gnuplot
