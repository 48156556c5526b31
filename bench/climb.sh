#!/bin/sh
# Heights of drawn places on a tile of 1,201 rows, steps of a buffer, and coverings: how many a second of each, over
# the time that the program takes without them.
# TIMINGS names the program `map_cases`, which times what its words name, where not the one at `crates/map_cases/out`, which the gate leaves there.
timings=${TIMINGS:+$(realpath "$TIMINGS")}
cd "$(dirname "$0")/.." || exit 1
[ -n "$timings" ] || [ -x crates/map_cases/out/map_cases ] || (cd crates/map_cases && rt run < stdin > /dev/null 2>&1) || exit 1
timings=${timings:-crates/map_cases/out/map_cases}
seconds() {
  /usr/bin/time -f '%U' "$timings" climb "$@" 2>&1 >/dev/null
}
base=$(seconds 0 0 0)
report() {
  awk -v name="$1" -v count="$2" -v base="$base" -v all="$3" \
    'BEGIN { printf "%s: %.1f million a second\n", name, count / 1000000 / (all - base) }'
}
count=50000000
report heights "$count" "$(seconds "$count" 0 0)"
report steps "$count" "$(seconds 0 "$count" 0)"
report coverings "$count" "$(seconds 0 0 "$count")"
