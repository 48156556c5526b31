#!/bin/bash
# The program making maps of grids of seed 2 and the tile: for each the middle of three runs, in seconds of the processor, with the
# bytes that were written and the peak of the memory. Its words are the cells of a side: 300 and 1,000 where there is none.
cd "$(dirname "$0")/../crates/route_serve" || exit 1
[ -x out/route_serve ] || ../../build >/dev/null || exit 1

# One run: seconds of the processor, KB, and the bytes that were written.
once() {
  { /usr/bin/time -q -f '%U %S %M' ./out/route_serve make seed=2 w="$1" h="$1" what="$2" | wc -c; } 2>&1 |
    awk 'NF == 3 { seconds = $1 + $2; kb = $3 } NF == 1 { bytes = $1 } END { print seconds, kb, bytes }'
}

[ $# -gt 0 ] || set -- 300 1000
for side; do
  for what in map hgt; do
    for _ in 1 2 3; do once "$side" "$what"; done | sort -n | awk -v side="$side" -v what="$what" '
      NR == 2 { printf "%s of %d by %d cells: %s s of the processor, %d KB, %d bytes\n", what, side, side, $1, $2, $3 }'
  done
done
