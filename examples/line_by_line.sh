#!/usr/bin/env bash
# Feeds the program a line at a time through a pipe, and shows each answer and row as it comes: what a line makes due is
# out before the program waits for the next one. Run it in a folder of its own, with the program's words after it:
#     ../examples/line_by_line.sh ../examples/readings.txt
set -eu
input=$1
here=$(cd "$(dirname "$0")" && pwd)
# Builds the program first, if need be.
"$here/../astream" run </dev/null >/dev/null
rm -f query-*.txt
coproc SERVICE { "$here/../astream" run; }
exec {answers}<&"${SERVICE[0]}" {lines}>&"${SERVICE[1]}" {SERVICE[1]}>&-
declare -A shown

# Shows what has come since it was last called.
show() {
    sleep 0.2
    while read -r -t 0.1 -u "$answers" answer; do echo "    answer: $answer"; done
    for output in query-*.txt; do
        [ -e "$output" ] || continue
        tail -n "+$((${shown[$output]:-0} + 1))" "$output" | sed "s/^/    $output: /"
        shown[$output]=$(wc -l < "$output")
    done
}

while IFS= read -r line; do
    echo "$line"
    echo "$line" >&"$lines"
    show
done < "$input"
echo "(end of input)"
exec {lines}>&-
show
