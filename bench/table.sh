#!/usr/bin/env bash
# The costs between ten places of a made city, by the path `/brouter/table` of `serve`, beside ten searches of a plain program without a
# bound, each from one of the places to the one that is dearest to come to: the server's own milliseconds of the processor, and those of the
# plain program. Then the command `within` for a kilometre, by how much more of the processor it takes than for no metre: a search
# that grows with what it reaches takes as much on a large city as on a small one.
#   YARDSTICK=FOLDER bench/table.sh [LINKS..]
# FOLDER is a Cargo project of that program, and has gen_city.py, which writes city.json, N49E008.hgt and queries.txt; the first ends of its
# lines 2 to 11 are the places. CITIES is a folder in which cities stay, PROGRAM the program where not the one that `./build` makes; the other
# program isn't built where PLAIN names it. TURNS says how often each is run, where not 5, one after the other in turn; of the runs of each that of
# middle length and the least are told. Before each of them the same program searches from the first place, uncounted, since both begin with what the other
# left of the caches.
set -e
[ -n "$YARDSTICK" ] || { echo "usage: YARDSTICK=FOLDER bench/table.sh [LINKS..]"; exit 1; }
yardstick=$(realpath "$YARDSTICK")
folder=$(mktemp -d)
trap 'rm -rf "$folder"' EXIT
cities=$(realpath "${CITIES:-$folder}")
cd "$(dirname "$0")/.."
if [ -z "$PROGRAM" ]; then
  [ -x crates/route_serve/out/route_serve ] || ./build > /dev/null
  PROGRAM=crates/route_serve/out/route_serve
fi
if [ -z "$PLAIN" ]; then
  CARGO_TARGET_DIR=$folder/target cargo build --quiet --release --offline --manifest-path "$yardstick/Cargo.toml"
  PLAIN=$(find "$folder/target/release" -maxdepth 1 -type f -perm -u+x | head -1)
fi
sample() {
  sed -n "/^pub const $1: /,/^\";/p" crates/case_inputs/src/samples.rt | sed '1s/^[^"]*"//; $d'
}
sample LOOK > "$folder/look.dat"
sample TREK > "$folder/trek.brf"
echo '---context:way assign costfactor 1' > "$folder/plain.brf"
cat > "$folder/table.py" <<'PYTHON'
import json
import os
import re
import socket
import subprocess
import sys
import time

PROGRAM, PLAIN, FOLDER, CITY, PROFILE, PORT, TURNS = *sys.argv[1:6], int(sys.argv[6]), int(sys.argv[7])
FILES = [f'lookups={FOLDER}/look.dat', f'profile={FOLDER}/{PROFILE}.brf', f'map={CITY}/city.json', f'tile={CITY}/N49E008.hgt']


def middle(figures):
    return sorted(figures)[len(figures) // 2]


def ask(server, target):
    """The body of the reply to a request, and the milliseconds of the processor that the server took for it."""
    def processor():
        with open(f'/proc/{server}/schedstat', encoding='ascii') as file:
            return int(file.read().split()[0]) / 1e6
    begun, reply = processor(), b''
    with socket.create_connection(('127.0.0.1', PORT)) as peer:
        peer.sendall(f'GET {target} HTTP/1.1\r\n\r\n'.encode())
        while piece := peer.recv(65536):
            reply += piece
    time.sleep(0.01)
    return reply.split(b'\r\n\r\n', 1)[1], processor() - begun


def plain(lines):
    """The milliseconds of the plain program's searches, and what they cost in all. The first line is searched before them, apart."""
    with open(f'{FOLDER}/lines', 'w', encoding='ascii') as file:
        file.write(f'{lines[0]}\n' + ''.join(f'{line}\n' for line in lines))
    told = subprocess.run([PLAIN, 'bench', *FILES, f'queries={FOLDER}/lines', 'low=zero'], capture_output=True, text=True, check=True).stderr
    return float(re.search(r'many_search_ms (\S+)', told)[1]), re.search(r'many_cost_sum (\S+)', told)[1]


def dearest(places, costs):
    """A line for each place, to the one that is dearest to come to."""
    far = [max((float(cost), to) for to, cost in enumerate(row) if cost is not None)[1] for row in costs]
    return [f'{place}|{places[to]}' for place, to in zip(places, far)]


def in_turn(places):
    """The table of places by a server of this city, the milliseconds of both programs in each turn, and what theirs cost in all."""
    server = subprocess.Popen([PROGRAM, 'serve', *FILES, f'listen=127.0.0.1:{PORT}'])
    try:
        for _ in range(600):
            try:
                socket.create_connection(('127.0.0.1', PORT), timeout=1).close()
                break
            except OSError:
                time.sleep(0.1)
        target = f'/brouter/table?lonlats={"%7C".join(places)}&profile={PROFILE}'
        costs = json.loads(ask(server.pid, target)[0])['costs']
        lines = dearest(places, costs)
        first = f'/brouter/table?lonlats={lines[0].replace("|", "%7C")}&profile={PROFILE}'
        turns = []
        for _ in range(TURNS):
            ask(server.pid, first)
            turns.append((ask(server.pid, target)[1], *plain(lines)))
        return costs, [ours for ours, _, _ in turns], [theirs for _, theirs, _ in turns], turns[0][2]
    finally:
        server.kill()
        server.wait()


def within(places, cost):
    """The milliseconds of the processor of the whole command, and how many lines it wrote."""
    words = [PROGRAM, 'within', *FILES, f'query=lonlats={places[0]}|{places[0]}&profile={PROFILE}', f'cost={cost}']
    runs = []
    for _ in range(TURNS):
        with subprocess.Popen(words, stdout=subprocess.PIPE) as run:
            lines = run.stdout.read().count(b'\n')
            used = os.wait4(run.pid, 0)[2]
            run.returncode = 0
        runs.append(1000 * (used.ru_utime + used.ru_stime))
    return middle(runs), lines


with open(f'{CITY}/queries.txt', encoding='ascii') as file:
    places = [line.split('|')[0] for line in file.read().split('\n')[1:11]]
costs, ours, theirs, total = in_turn(places)
cost = sum(max(float(cost) for cost in row if cost is not None) for row in costs)
print(f'{PROFILE}: a table of ten places {middle(ours):.0f} ms, the plain program {middle(theirs):.0f} ms, {middle(ours) / middle(theirs):.2f} times; '
      f'the least {min(ours):.0f} and {min(theirs):.0f} ms, {min(ours) / min(theirs):.2f} times'
      f'{"" if abs(cost - float(total)) < 1e-6 else f"; DIFFERENT: {cost:.6f} and {total}"}')
none, _ = within(places, 0)
near, lines = within(places, 1000)
print(f'{PROFILE}: within a cost of 1000 of a place, twice: {near - none:.0f} ms more than within 0 ({none:.0f} ms), {lines // 2} nodes', flush=True)
PYTHON
[ $# -gt 0 ] || set -- 100000
for links; do
  city=$cities/$links
  [ -s "$city/queries.txt" ] || python3 "$yardstick/gen_city.py" seed=1 links="$links" out="$city" > /dev/null
  echo "$links links"
  for profile in plain trek; do
    python3 "$folder/table.py" "$PROGRAM" "$PLAIN" "$folder" "$city" "$profile" "${PORT:-17792}" "${TURNS:-5}"
  done
done
