#!/usr/bin/env bash
# Times heaprun on the scripts of bench/lines, each for one kind of command or collection. For each script it prints the
# nanoseconds of the best of five runs, in all and for each executed line. Nothing is compared, and no time fails.
#
#   bench/run.sh [NAME ..]     the scripts of these names; all if none is given
#
# The first line of a script says what it is for, the second its arguments and how many lines it executes. Two more are
# too long to keep and are made here: `print` writes 35,000 lines; `parse` is refused at its last line, so it is read
# and judged, but not run.
top=$(cd "$(dirname "$0")/.." && pwd) || exit 1
folder=$(mktemp -d) || exit 1
trap 'rm -rf "$folder"' EXIT
"$top/heaprun" run <"$top/examples/first.heap" >"$folder/out" || exit 1
program=$top/crates/heaprun/out/heaprun

cp "$top"/bench/lines/*.heap "$folder" || exit 1
awk 'BEGIN { print "# lines that are read and judged\n# run | 22001 lines"
  for (i = 0; i < 22000; i++) printf "get some_variable_%d  x field_%d # a comment\n", i % 1000, i % 4000
  print "make x" }' >"$folder/parse.heap"
awk 'BEGIN { print "# lines that are read, and write\n# run | 35000 lines"
  for (i = 0; i < 35000; i++) print "print 9223372036854775807" }' >"$folder/print.heap"

[ $# -gt 0 ] || set -- $(cd "$folder" && ls ./*.heap | sed 's|^\./||; s|\.heap$||')
for name in "$@"; do
  head=$(sed -n 2p "$folder/$name.heap")
  arguments=${head#\# } lines=${head##*| }
  arguments=${arguments%% |*} lines=${lines%% *}
  best=
  for _ in 1 2 3 4 5; do
    from=$(date +%s%N)
    # The arguments are separated by blanks.
    # shellcheck disable=SC2086
    "$program" $arguments <"$folder/$name.heap" >"$folder/out"
    status=$?
    took=$(($(date +%s%N) - from))
    if [ -z "$best" ] || [ "$took" -lt "$best" ]; then best=$took; fi
  done
  printf '%-18s %9d lines  status %d  %10d ns  %6d ns a line\n' "$name" "$lines" "$status" "$best" "$((best / (lines + 1)))"
done
