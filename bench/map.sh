#!/usr/bin/env bash
# Reads a map's text and makes its map, and prints what it has, processor seconds and the most memory. With a file's name, of that
# text; otherwise of the maps of grids of 300 by 300 and 1,000 by 1,000 cells.
# TIMINGS names the program `map_cases`, which times what its words name, where not the one at `crates/map_cases/out`, which the gate leaves there.
set -e
timings=${TIMINGS:+$(realpath "$TIMINGS")}
cd "$(dirname "$0")/.."
[ -n "$timings" ] || [ -x crates/map_cases/out/map_cases ] || (cd crates/map_cases && rt run < stdin > /dev/null)
timings=${timings:-crates/map_cases/out/map_cases}
timed() {
  /usr/bin/time -f '%U s and %S s of the processor, %M KB' "$timings" map
}
if [ -n "$1" ]; then
  timed < "$1"
else
  [ -x crates/route_serve/out/route_serve ] || ./build > /dev/null
  for side in 300 1000; do
    text=$(mktemp)
    crates/route_serve/out/route_serve make seed=1 w=$side h=$side what=map > "$text"
    echo "a grid of $side by $side, $(stat -c %s "$text") bytes"
    timed < "$text"
    rm -f "$text"
  done
fi
