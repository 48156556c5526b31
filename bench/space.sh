#!/usr/bin/env bash
# Walks of least rank between ten pairs of nodes of a map, by the profile for trekking on a tile, with the price of descents and
# without, from link to link and from junction to junction: milliseconds of the processor for opening a search, which is the least
# sums of all nodes, and labels and seconds of the searches alone. The first is the difference of runs that settle no label and runs
# that search nothing, by ten; the second that of runs that search to the end and runs that settle none.
#   bench/space.sh FILE [TILE]
# Where PLAIN names another program that answers `bench lookups= profile= map= tile= queries=` with lines of a name and a figure
# (long_low_ms, long_search_ms, long_settled, and the same of `many`), it is asked for the same pairs in turn. SEARCHES and TURNS say
# how many pairs and how many turns there are, where not 10 and 3.
# TIMINGS names the program `map_cases`, which times what its words name, where not the one at `crates/map_cases/out`, which the gate leaves there.
set -e
[ -n "$1" ] || { echo "usage: bench/space.sh FILE [TILE]"; exit 1; }
text=$(realpath "$1")
tile=${2:+$(realpath "$2")}
timings=${TIMINGS:+$(realpath "$TIMINGS")}
cd "$(dirname "$0")/.."
[ -n "$timings" ] || [ -x crates/map_cases/out/map_cases ] || (cd crates/map_cases && rt run < stdin > /dev/null)
timings=${timings:-crates/map_cases/out/map_cases}
folder=$(mktemp -d)
trap 'rm -rf "$folder"' EXIT
searches=${SEARCHES:-10}

# Seconds of the processor for so many searches with this limit of labels, with a price of descents or none, by junction runs or not.
seconds() {
  /usr/bin/time -f '%U' "$timings" space "$1" "$2" "$3" "$4" $tile < "$text" 2>&1 > "$folder/told"
}

# The text of a constant of the sample texts.
sample() {
  sed -n "/^pub const $1: /,/^\";/p" crates/case_inputs/src/samples.rt | sed '1s/^[^"]*"//; $d'
}

# The pairs that were searched, as the other program reads them.
pairs() {
  awk '/ labels, / { split($1 "," $2, p, ",")
    printf "%.6f,%.6f|%.6f,%.6f\n", p[1] / 1e6, p[2] / 1e6, p[3] / 1e6, p[4] / 1e6 }' "$folder/told"
}

# What our searches took with a price of descents or none, by junction runs or not.
ours() {
  local none opened whole
  none=$(seconds 0 0 "$1" "$2")
  opened=$(seconds "$searches" 0 "$1" "$2")
  whole=$(seconds "$searches" 4294967295 "$1" "$2")
  tail -1 "$folder/told" | awk -v none="$none" -v opened="$opened" -v whole="$whole" -v way="$3" '
    { seconds = whole - opened
      printf "  %s: %.0f ms a search to open, %.2f s of searching, %.2f million labels a second, %s\n",
        way, (opened - none) * 1000 / $1, seconds, (seconds > 0 ? $(NF - 1) / seconds / 1e6 : 0), $0 }'
}

# What the other program says of the same pairs, by the profile with the price of descents or none.
plain() {
  sample TREK > "$folder/trek.brf"
  [ "$1" = 1 ] || sed -i 's/^assign consider_elevation .*/assign consider_elevation false/' "$folder/trek.brf"
  sample LOOK > "$folder/look.dat"
  "$PLAIN" bench lookups="$folder/look.dat" profile="$folder/trek.brf" map="$text" ${tile:+tile="$tile"} \
    queries="$folder/pairs" 2>&1 > /dev/null | awk -v searches="$searches" '
    /^(long|many)_low_ms/ { low += $2 }
    /^(long|many)_search_ms/ { search += $2 }
    /^(long|many)_settled / { labels += $2 }
    /^(long_cost|many_cost_sum) / { cost += $2 }
    END { printf "  the other program: %.0f ms a search to open, %.2f s of searching, %.2f million labels a second, %d labels, cost %.3f\n",
      low / searches, search / 1000, (search > 0 ? labels / search / 1000 : 0), labels, cost }'
}

for hilly in 1 0; do
  [ "$hilly" = 1 ] && echo "descents have a price:" || echo "descents have none:"
  for _ in $(seq "${TURNS:-3}"); do
    ours "$hilly" 0 "from link to link"
    ours "$hilly" 1 "from junction to junction"
    if [ -n "$PLAIN" ]; then
      pairs > "$folder/pairs"
      plain "$hilly"
    fi
  done
done
