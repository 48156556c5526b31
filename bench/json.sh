#!/bin/sh
# The scanner over a generated Overpass text of 206 MB, in pieces of 64 KiB and whole: seconds of the processor,
# MB per second, and the peak of the memory, of which the whole text takes 206 MB twice.
# TIMINGS names the program `map_cases`, which times what its words name, where not the one at `crates/map_cases/out`, which the gate leaves there.
timings=${TIMINGS:+$(realpath "$TIMINGS")}
cd "$(dirname "$0")/.." || exit 1
[ -n "$timings" ] || [ -x crates/map_cases/out/map_cases ] || (cd crates/map_cases && rt run < stdin > /dev/null 2>&1) || exit 1
timings=${timings:-crates/map_cases/out/map_cases}
for size in 65536 1000000000000; do
  /usr/bin/time -f '%U %M' "$timings" json 450000 "$size" 2>&1 |
    awk -v size="$size" 'NR == 1 { bytes = $1 } NR == 2 { printf "pieces of %s bytes: %s s, %.0f MB/s, %d KB\n", size, $1, bytes / 1000000 / $1, $2 }'
done
