#!/usr/bin/env bash
# The command `serve` on a made city of a million links: forty rides of mixed lengths by two profiles, and two hundred of some 300 metres, by
# the server's own seconds of the processor, beside a plain program that answers the same forty in one process.
#   YARDSTICK=FOLDER bench/mixed.sh [LINKS]
# FOLDER is a Cargo project of that program, and has gen_city.py, which writes city.json, N49E008.hgt and queries.txt, of whose lines 2 to 41
# are asked; its `bench` tells how many it answers in a second. CITIES is a folder in which cities stay, PROGRAM the program where not the one
# that `./build` makes; the other program isn't built where PLAIN names it.
set -e
[ -n "$YARDSTICK" ] || { echo "usage: YARDSTICK=FOLDER bench/mixed.sh [LINKS]"; exit 1; }
yardstick=$(realpath "$YARDSTICK")
links=${1:-1000000}
folder=$(mktemp -d)
cities=$(realpath "${CITIES:-$folder}")
cd "$(dirname "$0")/.."
if [ -z "$PROGRAM" ]; then
  [ -x crates/route_serve/out/route_serve ] || ./build > /dev/null
  PROGRAM=crates/route_serve/out/route_serve
fi
if [ -z "$PLAIN" ]; then
  CARGO_TARGET_DIR=$folder/target cargo build --quiet --release --offline --manifest-path "$yardstick/Cargo.toml"
  PLAIN=$(find "$folder/target/release" -maxdepth 1 -type f -perm -u+x | head -1)
fi
sample() {
  sed -n "/^pub const $1: /,/^\";/p" crates/case_inputs/src/samples.rt | sed '1s/^[^"]*"//; $d'
}
sample LOOK > "$folder/look.dat"
sample TREK > "$folder/trek.brf"
echo '---context:way assign costfactor 1' > "$folder/plain.brf"
city=$cities/$links
[ -s "$city/queries.txt" ] || python3 "$yardstick/gen_city.py" seed=1 links="$links" out="$city" > /dev/null
sed -n '2,41p' "$city/queries.txt" > "$folder/lines"
port=${PORT:-17791}
"$PROGRAM" serve lookups="$folder/look.dat" profile="$folder/plain.brf" profile="$folder/trek.brf" map="$city/city.json" \
  tile="$city/N49E008.hgt" listen="127.0.0.1:$port" &
server=$!
trap 'kill $server; rm -rf "$folder"' EXIT
cat > "$folder/ask.py" <<'PYTHON'
import json
import socket
import sys
import time

PORT, SERVER, CITY, PROFILE, LINES = int(sys.argv[1]), int(sys.argv[2]), sys.argv[3], sys.argv[4], sys.argv[5]


def processor():
    """The seconds of the processor that the server took."""
    with open(f'/proc/{SERVER}/schedstat', encoding='ascii') as file:
        return int(file.read().split()[0]) / 1e9


def ask(waypoints):
    """The reply to a request, and the milliseconds of the processor that the server took for it."""
    begun, reply = processor(), b''
    with socket.create_connection(('127.0.0.1', PORT)) as peer:
        peer.sendall(f'GET /brouter?lonlats={waypoints.replace("|", "%7C")}&profile={PROFILE}&format=csv HTTP/1.1\r\n\r\n'.encode())
        while piece := peer.recv(65536):
            reply += piece
    time.sleep(0.002)
    return reply, 1000 * (processor() - begun)


def wait():
    for _ in range(1200):
        try:
            socket.create_connection(('127.0.0.1', PORT), timeout=1).close()
            return
        except OSError:
            time.sleep(0.1)
    sys.exit('the server does not listen')


def told(what, asked):
    took = sorted(ms for reply, ms in map(ask, asked) if reply.startswith(b'HTTP/1.1 200'))
    print(f'{PROFILE}, {what}: {len(took)} of {len(asked)} found, {sum(took) / len(took):.2f} ms each, '
          f'{1000 * len(took) / sum(took):.0f} a second; the middle one {took[len(took) // 2]:.2f} ms', flush=True)


wait()
with open(LINES, encoding='utf8') as file:
    told('mixed', file.read().split())
with open(CITY, encoding='utf8') as file:
    nodes = [(e['lon'], e['lat']) for e in json.load(file)['elements'] if e['type'] == 'node']
step = max(1, len(nodes) // 200)
told('some 300 m', [f'{lon:.6f},{lat:.6f}|{lon + 0.003:.6f},{lat + 0.0015:.6f}' for lon, lat in nodes[::step]])
PYTHON
for profile in plain trek; do
  python3 "$folder/ask.py" "$port" "$server" "$city/city.json" "$profile" "$folder/lines"
  echo "$profile, mixed, the plain program: $("$PLAIN" bench lookups="$folder/look.dat" profile="$folder/$profile.brf" map="$city/city.json" \
    tile="$city/N49E008.hgt" queries="$folder/lines" low=lazy 2>&1 | grep routes_per_s)"
done
