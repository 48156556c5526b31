#!/usr/bin/env bash
# The command `route` on made cities of 100,000 and a million links, by three profiles: seconds of the clock and of the processor and the
# most memory of the whole command, beside those of another program that answers the same words in turns with it, and whether both
# tell the same cost. Of each the run of middle length is told.
#   YARDSTICK=FOLDER bench/route.sh [LINKS..]
# FOLDER is a Cargo project of that program, and has gen_city.py, which writes city.json, N49E008.hgt and queries.txt (lines of
# waypoints, the first from corner to corner). Its words say how many links the cities have, where there are any.
# TURNS and QUERIES say how many turns and how many lines there are, where not 3 and 3; the program isn't built where PLAIN names it;
# and cities that are made in the folder CITIES stay there for the next time.
set -e
[ -n "$YARDSTICK" ] || { echo "usage: YARDSTICK=FOLDER bench/route.sh [LINKS..]"; exit 1; }
yardstick=$(realpath "$YARDSTICK")
folder=$(mktemp -d)
trap 'rm -rf "$folder"' EXIT
cities=$(realpath "${CITIES:-$folder}")
cd "$(dirname "$0")/.."
[ -x crates/route_serve/out/route_serve ] || ./build > /dev/null
ours=crates/route_serve/out/route_serve
if [ -z "$PLAIN" ]; then
  CARGO_TARGET_DIR=$folder/target cargo build --quiet --release --offline --manifest-path "$yardstick/Cargo.toml"
  PLAIN=$(find "$folder/target/release" -maxdepth 1 -type f -perm -u+x | head -1)
fi

# The text of a constant of the sample texts.
sample() {
  sed -n "/^pub const $1: /,/^\";/p" crates/case_inputs/src/samples.rt | sed '1s/^[^"]*"//; $d'
}
sample LOOK > "$folder/look.dat"
sample TREK > "$folder/trek.brf"
echo '---context:way assign costfactor 1' > "$folder/plain.brf"
echo '---context:global assign uphillcost 100 assign uphillcutoff 1.5 ---context:way assign costfactor 1' > "$folder/hill.brf"

# One run of a program by a profile on a city, between waypoints: its reply goes to a file of its name, and what it took is added to
# another one.
once() {
  /usr/bin/time -q -a -o "$folder/$1.took" -f '%e %U %M' "$2" route lookups="$folder/look.dat" profile="$folder/$3.brf" \
    map="$4/city.json" tile="$4/N49E008.hgt" query="lonlats=$5&profile=$3&format=csv" > "$folder/$1.told" 2> "$folder/$1.refused" || true
}

# What the run of middle length took, of those of a program.
took() {
  sort -n "$folder/$1.took" | awk '{ run[NR] = $0 }
    END { split(run[int((NR + 1) / 2)], part, " "); printf "%.2f s, %.2f s of the processor, %.0f MB", part[1], part[2], part[3] / 1024 }'
}

# What the last run of a program told: the cost, or else the line of its refusal.
told() {
  if [ -s "$folder/$1.told" ]; then
    awk '$1 == "cost" { print "cost " $2 }' "$folder/$1.told"
  else
    tail -n 1 "$folder/$1.refused"
  fi
}

# Both programs by a profile on a city, between the waypoints of a line.
compare() {
  local profile=$1 city=$2 line=$3 waypoints
  waypoints=$(sed -n "${line}p" "$city/queries.txt")
  rm -f "$folder"/*.took
  for _ in $(seq "${TURNS:-3}"); do
    once theirs "$PLAIN" "$profile" "$city" "$waypoints"
    once ours "$ours" "$profile" "$city" "$waypoints"
  done
  echo "  $profile, line $line: $(took ours); the other program $(took theirs)"
  if [ "$(told ours)" = "$(told theirs)" ]; then
    echo "    both: $(told ours)"
  else
    echo "    DIFFERENT: $(told ours); the other program: $(told theirs)"
  fi
}

[ $# -gt 0 ] || set -- 100000 1000000
for links; do
  city=$cities/$links
  [ -s "$city/queries.txt" ] || python3 "$yardstick/gen_city.py" seed=1 links="$links" out="$city" > /dev/null
  echo "$links links, $(stat -c %s "$city/city.json") bytes"
  for profile in plain trek hill; do
    for line in $(seq "${QUERIES:-3}"); do
      compare "$profile" "$city" "$line"
    done
  done
done
