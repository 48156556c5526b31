#!/usr/bin/env bash
# The commands `certify`, `check` and `route` on made cities of 10,000, 100,000 and a million links, by three profiles, for a long ride
# and a short one: the size of the certificate, its labels, and for each of the three commands the seconds of the processor and the most
# memory of the whole command, in one table of Markdown. A row where the check says anything but yes, at the cost of the route, is told.
#   YARDSTICK=FOLDER bench/certify.sh [LINKS..]
# FOLDER has gen_city.py, which writes city.json, N49E008.hgt and queries.txt: lines of waypoints, the first from corner to corner; the
# short ride is the one of the others whose ends are nearest to each other, but not at one place. LABELS says how many labels a leg may
# take, where not 50,000,000; TURNS how often each command is run, where not 3, the run of middle length being told; BOUND=1 asks for
# certificates of the second form; and cities that are made in the folder CITIES stay there for the next time.
set -e
[ -n "$YARDSTICK" ] || { echo "usage: YARDSTICK=FOLDER bench/certify.sh [LINKS..]"; exit 1; }
yardstick=$(realpath "$YARDSTICK")
folder=$(mktemp -d)
trap 'rm -rf "$folder"' EXIT
cities=$(realpath "${CITIES:-$folder}")
cd "$(dirname "$0")/.."
ours=${OURS:-crates/route_serve/out/route_serve}
[ -x "$ours" ] || ./build > /dev/null

# The text of a constant of the sample texts.
sample() {
  sed -n "/^pub const $1: /,/^\";/p" crates/case_inputs/src/samples.rt | sed '1s/^[^"]*"//; $d'
}
sample LOOK > "$folder/look.dat"
sample TREK > "$folder/trek.brf"
echo '---context:way assign costfactor 1' > "$folder/plain.brf"
echo '---context:global assign uphillcost 100 assign uphillcutoff 1.5 ---context:way assign costfactor 1' > "$folder/hill.brf"

# The waypoints of the short ride of a city.
short_ride() {
  tail -n +2 "$1/queries.txt" | awk -F '[,|]' '{ d = ($1 - $3) ^ 2 + 2.3 * ($2 - $4) ^ 2; if (d > 0) print d, $0 }' |
    sort -g | head -n 1 | cut -d ' ' -f 2
}

# A command of ours by a profile on a city between waypoints, with a word more where there is one: what it writes goes to a file of its
# name, and its seconds of the processor and its memory to another, of the run of middle length.
run() {
  local name=$1 profile=$2 city=$3 waypoints=$4
  shift 4
  rm -f "$folder/$name.took"
  for _ in $(seq "${TURNS:-3}"); do
    /usr/bin/time -q -a -o "$folder/$name.took" -f '%U %S %M' "$ours" "$name" lookups="$folder/look.dat" \
      profile="$folder/$profile.brf" map="$city/city.json" tile="$city/N49E008.hgt" \
      query="lonlats=$waypoints&profile=$profile&format=csv&labels=${LABELS:-50000000}" "$@" \
      > "$folder/$name.told" 2> "$folder/$name.refused" || true
  done
  sort -n "$folder/$name.took" | awk '{ run[NR] = $0 }
    END { split(run[int((NR + 1) / 2)], part, " "); printf "%.2f s, %.0f MB", part[1] + part[2], part[3] / 1024 }' > "$folder/$name.row"
}

# A row: a ride of a city by a profile.
row() {
  local links=$1 profile=$2 ride=$3 city=$4 waypoints=$5 yes route
  run route "$profile" "$city" "$waypoints"
  run certify "$profile" "$city" "$waypoints" bound="${BOUND:-0}"
  cp "$folder/certify.told" "$folder/ride.certificate"
  run check "$profile" "$city" "$waypoints" certificate="$folder/ride.certificate"
  echo "| $links | $profile | $ride | $(stat -c %s "$folder/ride.certificate") | $(grep -c '^label' "$folder/ride.certificate") |" \
    "$(cat "$folder/certify.row") | $(cat "$folder/check.row") | $(cat "$folder/route.row") |"
  yes=$(tr '\n' ' ' < "$folder/check.told")
  route=$(awk '$1 == "cost" { print $2 }' "$folder/route.told")
  if [ "$yes" != "yes cost $route " ]; then
    echo "DIFFERENT: check tells '$yes$(tail -n 1 "$folder/check.refused")', certify '$(tail -n 1 "$folder/certify.refused")'," \
      "route '$route$(tail -n 1 "$folder/route.refused")'"
  fi
}

[ $# -gt 0 ] || set -- 10000 100000 1000000
echo '| links | profile | ride | bytes | labels | `certify` | `check` | `route` |'
echo '|---|---|---|---|---|---|---|---|'
for links; do
  city=$cities/$links
  [ -s "$city/queries.txt" ] || python3 "$yardstick/gen_city.py" seed=1 links="$links" out="$city" > /dev/null
  for profile in plain trek hill; do
    row "$links" "$profile" long "$city" "$(head -n 1 "$city/queries.txt")"
    row "$links" "$profile" short "$city" "$(short_ride "$city")"
  done
done
