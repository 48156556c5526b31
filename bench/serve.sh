#!/usr/bin/env bash
# The command `serve` on a made city: requests a second for short routes with 1, 8 and 64 clients, the slowest of 1,000 requests, and the
# memory after 100,000 requests, an upload among them. Each request is a connection of its own.
#   YARDSTICK=FOLDER bench/serve.sh [LINKS]
# A request costs the more the larger the map is: with 10,000 links the whole takes a minute or two, with 100,000 twenty.
# FOLDER has gen_city.py, which writes city.json, N49E008.hgt and queries.txt. CITIES is a folder in which cities stay, PROGRAM the
# program where not the one that `./build` makes, REQUESTS how many there are at the end.
set -e
[ -n "$YARDSTICK" ] || { echo "usage: YARDSTICK=FOLDER bench/serve.sh [LINKS]"; exit 1; }
links=${1:-100000}
folder=$(mktemp -d)
cities=${CITIES:-$folder}
cd "$(dirname "$0")/.."
if [ -z "$PROGRAM" ]; then
  [ -x crates/route_serve/out/route_serve ] || ./build > /dev/null
  PROGRAM=crates/route_serve/out/route_serve
fi
sample() {
  sed -n "/^pub const $1: /,/^\";/p" crates/case_inputs/src/samples.rt | sed '1s/^[^"]*"//; $d'
}
sample LOOK > "$folder/look.dat"
echo '---context:way assign costfactor 1' > "$folder/plain.brf"
city=$cities/$links
[ -s "$city/queries.txt" ] || python3 "$YARDSTICK/gen_city.py" seed=1 links="$links" out="$city" > /dev/null
port=${PORT:-17790}
"$PROGRAM" serve lookups="$folder/look.dat" profile="$folder/plain.brf" map="$city/city.json" tile="$city/N49E008.hgt" \
  listen="127.0.0.1:$port" &
server=$!
trap 'kill $server; rm -rf "$folder"' EXIT
python3 - "$port" "$server" "$city/city.json" "${REQUESTS:-100000}" <<'PYTHON'
import json
import os
import selectors
import socket
import sys
import time

PORT, SERVER, CITY, MANY = int(sys.argv[1]), int(sys.argv[2]), sys.argv[3], int(sys.argv[4])


def wait():
    for _ in range(600):
        try:
            socket.create_connection(('127.0.0.1', PORT), timeout=1).close()
            return
        except OSError:
            time.sleep(0.1)
    sys.exit('the server does not listen')


def short_rides():
    """Requests between nodes that stand beside each other in the map's list."""
    with open(CITY, encoding='utf8') as file:
        nodes = [(e['lon'], e['lat']) for e in json.load(file)['elements'] if e['type'] == 'node']
    step = max(1, len(nodes) // 500)
    return [f'GET /brouter?lonlats={a[0]:.6f},{a[1]:.6f}%7C{b[0]:.6f},{b[1]:.6f}&profile=plain&format=csv HTTP/1.1\r\n\r\n'.encode()
            for a, b in zip(nodes[::step], nodes[1::step])]


class Load:
    """So many requests by so many clients at once, each on a connection of its own."""

    def __init__(self, requests, clients, count):
        self.requests, self.count, self.begun, self.done = requests, count, 0, 0
        self.times, self.statuses = [], {}
        self.poll = selectors.DefaultSelector()
        for _ in range(min(clients, count)):
            self.begin()
        while self.done < count:
            for key, _ in self.poll.select():
                self.hear(key)

    def begin(self):
        if self.begun < self.count:
            peer = socket.create_connection(('127.0.0.1', PORT))
            peer.sendall(self.requests[self.begun % len(self.requests)])
            self.begun += 1
            self.poll.register(peer, selectors.EVENT_READ, [time.monotonic(), b''])

    def hear(self, key):
        try:
            piece = key.fileobj.recv(65536)
        except ConnectionResetError:
            piece = b''
        if piece:
            key.data[1] += piece
            return
        status = key.data[1][9:12].decode()
        self.statuses[status] = self.statuses.get(status, 0) + 1
        self.times.append(time.monotonic() - key.data[0])
        self.poll.unregister(key.fileobj)
        key.fileobj.close()
        self.done += 1
        self.begin()


def memory():
    with open(f'/proc/{SERVER}/status', encoding='ascii') as file:
        return next(int(line.split()[1]) for line in file if line.startswith('VmRSS')) / 1024


def processor():
    with open(f'/proc/{SERVER}/stat', encoding='ascii') as file:
        fields = file.read().rpartition(')')[2].split()
    return (int(fields[11]) + int(fields[12])) / os.sysconf('SC_CLK_TCK')


wait()
rides = short_rides()
print(f'after the start: {memory():.0f} MB')
for clients in (1, 8, 64):
    begun, burnt = time.monotonic(), processor()
    load = Load(rides, clients, 1000)
    took = time.monotonic() - begun
    print(f'{clients} clients: {1000 / took:.0f} requests a second, {1000 * (processor() - burnt) / 1000:.2f} ms of the processor each, '
          f'slowest of 1,000 {1000 * max(load.times):.1f} ms, answers {load.statuses}')
upload = b'---context:way\nassign costfactor 2\n'
Load([b'POST /brouter/profile HTTP/1.1\r\nContent-Length: %d\r\n\r\n%s' % (len(upload), upload)], 1, 1)
begun = time.monotonic()
load = Load(rides + [r.replace(b'profile=plain', b'profile=custom_1') for r in rides], 8, MANY)
print(f'after {MANY} more: {memory():.0f} MB, {MANY / (time.monotonic() - begun):.0f} requests a second, answers {load.statuses}')
PYTHON
