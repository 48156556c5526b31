#!/usr/bin/env bash
# Long fronts of the covering test: the command `within` over a made city of a thousand links with heights at random, by a profile whose
# buffers are large, both priced and never reduced. A search spends as many labels as it may have there; processor seconds for each of
# these limits, least of TURNS runs.
#   YARDSTICK=FOLDER bench/fronts.sh [LABELS..]
# FOLDER has gen_city.py, which writes city.json and queries.txt. PROGRAM is the program where not the one that `./build` makes; TURNS is 3
# where it isn't given.
set -e
[ -n "$YARDSTICK" ] || { echo "usage: YARDSTICK=FOLDER bench/fronts.sh [LABELS..]"; exit 1; }
yardstick=$(realpath "$YARDSTICK")
PROGRAM=${PROGRAM:+$(realpath "$PROGRAM")}
folder=$(mktemp -d)
trap 'rm -rf "$folder"' EXIT
cd "$(dirname "$0")/.."
if [ -z "$PROGRAM" ]; then
  [ -x crates/route_serve/out/route_serve ] || ./build > /dev/null
  PROGRAM=$PWD/crates/route_serve/out/route_serve
fi
python3 "$yardstick/gen_city.py" seed=1 links=1000 out="$folder" > /dev/null
python3 - "$folder/N49E008.hgt" <<'PYTHON'
import random
import struct
import sys

random.seed(3)
with open(sys.argv[1], "wb") as tile:
    tile.write(b"".join(struct.pack(">h", random.randrange(300)) for _ in range(1201 * 1201)))
PYTHON
sed -n '/^pub const LOOK: /,/^";/p' crates/case_inputs/src/samples.rt | sed '1s/^[^"]*"//; $d' > "$folder/look.dat"
cat > "$folder/steep.brf" <<'PROFILE'
---context:global
assign downhillcost 60
assign uphillcost 60
assign downhillcutoff 3
assign uphillcutoff 3
assign elevationpenaltybuffer 100
assign elevationmaxbuffer 10000
assign elevationbufferreduce 0
---context:way
assign costfactor 1
PROFILE
ends=$(sed -n 2p "$folder/queries.txt")
for labels in "${@:-100000}"; do
  for _ in $(seq "${TURNS:-3}"); do
    /usr/bin/time -f %U -o "$folder/seconds" "$PROGRAM" within lookups="$folder/look.dat" profile="$folder/steep.brf" \
      map="$folder/city.json" tile="$folder/N49E008.hgt" "query=lonlats=${ends%% *}&profile=steep&labels=$labels" cost=100000 \
      > /dev/null 2>&1 || true
    grep -v status "$folder/seconds"
  done | sort -n | head -1 | sed "s/\$/ s of the processor for $labels labels/"
done
