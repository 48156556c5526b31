#!/usr/bin/env bash
# Binds the profile for trekking with one tile to a map, and prints milliseconds of the processor for one binding, which are those of a
# run with eleven bindings less those of a run with one, by ten, and the most memory of reading the map alone and with a binding.
#   bench/bind.sh [FILE [TILE]]
# Without FILE the map is that of a grid of 500 by 500 cells, which has a million links; without TILE the tile slopes up to the east.
# Where PLAIN names another program that answers `bench lookups= profile= map= tile= queries=` with lines of a name and a figure
# (bind_ms, load_peak_MB, ready_peak_MB), it is asked for the same map in turn.
# TIMINGS names the program `map_cases`, which times what its words name, where not the one at `crates/map_cases/out`, which the gate leaves there.
set -e
text=${1:+$(realpath "$1")}
tile=${2:+$(realpath "$2")}
timings=${TIMINGS:+$(realpath "$TIMINGS")}
cd "$(dirname "$0")/.."
[ -n "$timings" ] || [ -x crates/map_cases/out/map_cases ] || (cd crates/map_cases && rt run < stdin > /dev/null)
timings=${timings:-crates/map_cases/out/map_cases}
folder=$(mktemp -d)
trap 'rm -rf "$folder"' EXIT
if [ -z "$text" ]; then
  [ -x crates/route_serve/out/route_serve ] || ./build > /dev/null
  text=$folder/map.json
  crates/route_serve/out/route_serve make seed=1 w=500 h=500 what=map > "$text"
fi

# Seconds of the processor and kilobytes of memory for so many bindings.
timed() {
  /usr/bin/time -f '%U %M' "$timings" bind "$1" $tile < "$text" 2>&1 > "$folder/told" | tail -1
}

# The text of a constant of the sample texts.
sample() {
  sed -n "/^pub const $1: /,/^\";/p" crates/case_inputs/src/samples.rt | sed '1s/^[^"]*"//; $d'
}
sample TREK > "$folder/trek.brf"
sample LOOK > "$folder/look.dat"
: > "$folder/pairs"

for _ in 1 2 3; do
  echo "$(timed 0) $(timed 1) $(timed 11)" |
    awk '{ printf "%.0f ms a binding, %.0f MB with the map alone, %.0f MB with a binding\n", ($5 - $3) * 100, $2 / 1024, $4 / 1024 }'
  if [ -n "$PLAIN" ]; then
    "$PLAIN" bench lookups="$folder/look.dat" profile="$folder/trek.brf" map="$text" ${tile:+tile="$tile"} \
      queries="$folder/pairs" 2>&1 > /dev/null | awk '
      { figure[$1] = $2 }
      END { printf "  the other program: %.0f ms a binding, %.0f MB with the map alone, %.0f MB with a binding\n",
        figure["bind_ms"], figure["load_peak_MB"], figure["ready_peak_MB"] }'
  fi
done
cat "$folder/told" | tail -1
