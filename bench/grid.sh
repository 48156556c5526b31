#!/bin/bash
# The program over grids of seed 2, from corner to corner: for each size the median of three runs, in seconds
# of the clock and of the processor, the cells per second of each, the peak of the memory, and the status (3
# where there is no way). Its words are the cells of a side: 100, 300 and 1,000 where there is none.
cd "$(dirname "$0")/../crates/route_serve" || exit 1
[ -x out/route_serve ] || ../../build >/dev/null || exit 1
TIMEFORMAT='%3R %3U'

# One run over a grid of so many cells a side: KB, status, seconds of the clock and of the processor.
once() {
  local end="$(($1 - 1)),$(($1 - 1))"
  { time /usr/bin/time -q -f '%M %x' ./out/route_serve grid seed=2 w="$1" h="$1" from=0,0 to="$end" 2>&1 >/dev/null; } 2>&1 |
    tail -n 2 | tr '\n' ' '
  echo
}

[ $# -gt 0 ] || set -- 100 300 1000
for side; do
  for _ in 1 2 3; do once "$side"; done | sort -n -k 4 | awk -v cells="$((side * side))" '
    function per(seconds) { return seconds > 0 ? sprintf("%.0f", cells / seconds) : "no time," }
    NR == 2 {
      printf "%d cells: %s s, %s cells/s; %s s of the processor, %s cells/s; %d KB; status %s\n",
        cells, $3, per($3), $4, per($4), $1, $2
    }'
done
