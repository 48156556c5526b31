#!/usr/bin/env bash
# Least sums of all nodes of a map for ten targets: milliseconds of the processor for one target, which are those of a run for
# ten less those of a run for none, by ten. With a file's name, on that map; otherwise on that of a grid of 500 by 500 cells, which
# has a million links.
# TIMINGS names the program `map_cases`, which times what its words name, where not the one at `crates/map_cases/out`, which the gate leaves there.
set -e
timings=${TIMINGS:+$(realpath "$TIMINGS")}
cd "$(dirname "$0")/.."
[ -n "$timings" ] || [ -x crates/map_cases/out/map_cases ] || (cd crates/map_cases && rt run < stdin > /dev/null)
timings=${timings:-crates/map_cases/out/map_cases}
text=$1
if [ -z "$text" ]; then
  [ -x crates/route_serve/out/route_serve ] || ./build > /dev/null
  text=$(mktemp)
  trap 'rm -f "$text"' EXIT
  crates/route_serve/out/route_serve make seed=1 w=500 h=500 what=map > "$text"
fi
seconds() {
  /usr/bin/time -f '%U' "$timings" sums "$1" < "$text" 2>&1 > /dev/null
}
"$timings" sums 10 < "$text"
for _ in 1 2 3; do
  awk -v none="$(seconds 0)" -v ten="$(seconds 10)" 'BEGIN { printf "%.0f ms a target\n", (ten - none) * 100 }'
done
