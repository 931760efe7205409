#!/usr/bin/env bash
# Times recoveries by raft_bench and by raft-engine in turns, and prints a table in markdown. Builds nothing.
#
#   beside.sh <raft_bench> <raft-engine's program> <folder of logs> [rounds] [malloc.so]
#
# Each folder in the folder of logs is a log: files `1.log`, `2.log`, .. of the append queue in version 2, or of the queue and version that
# the first two words of a file `args` name. In each round (nine by default) both programs are run in turns on each log, with 1, 2 and 4
# workers. Each run times 15 recoveries, from bytes in memory to finished tables. The best time is that of all rounds, the median time the
# median of the rounds' medians. With a malloc.so, both programs have it loaded in place of glibc's malloc.
#
# The other program is one over raft-engine that is called as
#   <program> bench-recover <queue> <version> --workers <n> --repeat 15 <seq>=<path>..
# and prints lines `recover workers <n> .. best_ms <best> median_ms <median> ..`, and one `recover single thread ..` in the same form, which
# counts as that of one worker. Other numbers of workers are given by the environment, as in `WORKERS="1 8"`.
set -euo pipefail

if [ $# -lt 3 ] || [ $# -gt 5 ]; then
    sed -n '4p' "$0" | sed 's/^# */usage: /' >&2
    exit 2
fi
ours=$1 theirs=$2 logs=$3 rounds=${4:-9} malloc=${5:-}
workers=${WORKERS:-1 2 4}
for program in "$ours" "$theirs"; do
    [ -x "$program" ] || { echo "beside.sh: no program $program" >&2; exit 2; }
done
[ -z "$malloc" ] || [ -r "$malloc" ] || { echo "beside.sh: no library $malloc" >&2; exit 2; }
[ "$rounds" -ge 1 ] || { echo "beside.sh: no rounds" >&2; exit 2; }
here=$(cd "$(dirname "$0")" && pwd)
times=$(mktemp)
trap 'rm -f "$times"' EXIT

# Prints the queue and the version of a log, and then its files, a line `<seq>=<path>` for each.
words_of() {
    if [ -r "$1/args" ]; then cut -d ' ' -f 1,2 "$1/args"; else echo append 2; fi
    for path in "$1"/*.log; do
        file=${path##*/}
        echo "${file%.log}=$path"
    done | sort -n
}

# Runs a program, with the malloc that the caller named, if it named one.
run() {
    if [ -n "$malloc" ]; then LD_PRELOAD=$malloc "$@"; else "$@"; fi
}

# Reads from standard input what a program printed, and keeps a line `log workers who best median` of it. $4 is how the line with the times
# begins.
keep() {
    awk -v name="$1" -v workers="$2" -v who="$3" -v head="$4" '
        index($0, head) == 1 {
            gsub(/best ms /, "best_ms "); gsub(/median ms /, "median_ms "); gsub(/,/, "")
            for (i = 1; i < NF; i++) { if ($i == "best_ms") best = $(i + 1); if ($i == "median_ms") median = $(i + 1) }
        }
        END { if (best == "") exit 1; print name, workers, who, best, median }' >> "$times" ||
        { echo "beside.sh: no time of $3 on $1 with $2 workers" >&2; exit 1; }
}

# Prints the load of the machine: over one, five and fifteen minutes.
load() { cut -d ' ' -f 1-3 /proc/loadavg; }

before=$(load)
for round in $(seq "$rounds"); do
    for log in "$logs"/*/; do
        log=${log%/}
        read -r queue version < <(words_of "$log")
        mapfile -t files < <(words_of "$log" | tail -n +2)
        for n in $workers; do
            run "$ours" recover "$queue" "$version" "$n" "${files[@]}" |
                keep "${log##*/}" "$n" here "recover, $n workers"
            head="recover workers $n "
            [ "$n" != 1 ] || head="recover single thread"
            run "$theirs" bench-recover "$queue" "$version" --workers "$n" --repeat 15 "${files[@]}" |
                keep "${log##*/}" "$n" raft-engine "$head"
        done
    done
    echo "round $round of $rounds" >&2
done

name=$(basename "${malloc:-$(getconf GNU_LIBC_VERSION 2>/dev/null || echo glibc)}")
echo "$(date -u +%F), $(awk -F ': ' '/^model name/ { print $2; exit }' /proc/cpuinfo), $(nproc) processors, load" \
    "$before before and $(load) after; malloc of $name; rounds: $rounds; commit $(git -C "$here" rev-parse --short HEAD)."
echo
echo "| log | workers | here: best, median | raft-engine: best, median | ratio of the best | of the medians |"
echo "|---|---|---|---|---|---|"
sort -k 1,1 -k 2,2n -k 3,3 -k 5,5n "$times" | awk '
    function close_group() {
        if (!count) return
        middle = count % 2 ? medians[(count + 1) / 2] : (medians[count / 2] + medians[count / 2 + 1]) / 2
        if (who == "here") { best_here = best; middle_here = middle }
        else printf "| %s | %s | %.1f, %.1f ms | %.1f, %.1f ms | %.2f | %.2f |\n", log_name, workers,
            best_here, middle_here, best, middle, best_here / best, middle_here / middle
        count = 0
    }
    {
        if ($1 != log_name || $2 != workers || $3 != who) { close_group(); log_name = $1; workers = $2; who = $3; best = $4 }
        medians[++count] = $5
        if ($4 < best) best = $4
    }
    END { close_group() }'
