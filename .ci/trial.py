"""What the trials of fronts share: the program and what lies before it as processes, single requests, and loads of rides whose answers
are counted."""
import collections
import http.client
import itertools
import os
import shutil
import signal
import socket
import subprocess
import sys
import threading
import time

TOP = os.path.dirname(os.path.dirname(os.path.abspath(__file__)))
TOWN = os.path.join(TOP, 'examples')
DIST = os.path.join(TOP, 'dist')
RIDE = 'lonlats=8.5156,49.1114|8.5198,49.1150&profile=trekking&format=csv'
COST = '799.132265'
HILL = 'lonlats=8.5293,49.1112|8.5297,49.1211&format=csv'
HILL_COST = '4029.960701'
FAILED = []


def need(*names):
    """Ends where one of these programs is missing. A trial that is ended from outside puts away what it made, as one that fails does."""
    signal.signal(signal.SIGTERM, lambda *_: sys.exit('ended from outside'))
    os.environ['PATH'] += ':/usr/local/sbin:/usr/sbin:/sbin'
    missing = [name for name in names if not shutil.which(name)]
    if missing:
        sys.exit('not there: ' + ', '.join(missing))


def program():
    """The program that PROGRAM names, or the one that `./build` leaves."""
    if 'PROGRAM' in os.environ:
        return os.path.abspath(os.environ['PROGRAM'])
    path = os.path.join(TOP, 'crates', 'route_serve', 'out', 'route_serve')
    if not os.path.exists(path):
        subprocess.run([os.path.join(TOP, 'build')], check=True, stdout=subprocess.DEVNULL)
    return path


def told(name, right, found=''):
    """Tells a try, and what was found where it isn't right."""
    print(f"{'ok  ' if right else 'FAIL'} {name}" + ('' if right else f': {found!r}'), flush=True)
    if not right:
        FAILED.append(name)


def end():
    """Tells how many tries failed, and ends with 1 where one did."""
    print(f'{len(FAILED)} failed')
    sys.exit(1 if FAILED else 0)


def until(holds, seconds=30):
    """Whether this comes to hold in so many seconds."""
    last = time.monotonic() + seconds
    while not holds():
        if time.monotonic() > last:
            return False
        time.sleep(0.05)
    return True


def listens(port, host='127.0.0.1'):
    with socket.socket() as probe:
        probe.settimeout(1)
        return probe.connect_ex((host, port)) == 0


def curl(url, *more, inside=()):
    """The status and the body of a request; `inside` are the words that go before the command."""
    out = subprocess.run([*inside, 'curl', '-sS', '-g', '--max-time', '120', '-w', '\n%{http_code}', *more, url],
                         stdout=subprocess.PIPE, stderr=subprocess.PIPE, check=False)
    body, _, status = out.stdout.decode(errors='replace').rpartition('\n')
    return int(status or 0), body


def heads(url, *more):
    """The head of an answer, as it stands."""
    return curl(url, '-D', '-', '-o', '/dev/null', *more)[1]


def field(head, name):
    """The values of a field of a head."""
    rows = [line.partition(':') for line in head.splitlines()]
    return [value.strip() for key, _, value in rows if key.lower() == name.lower()]


def cost(body):
    """The cost that a reply in lines tells."""
    for line in body.splitlines():
        if line.startswith('cost\t'):
            return line[5:]
    return body


class Processes:
    """Processes that a trial starts, by their names, and ends."""

    def __init__(self):
        self.held = {}

    def start(self, name, *words, **more):
        self.held[name] = subprocess.Popen(words, stdin=subprocess.DEVNULL, stdout=subprocess.DEVNULL, stderr=subprocess.DEVNULL, **more)
        return self.held[name]

    def signal(self, name, number):
        self.held[name].send_signal(number)

    def kill(self, name):
        held = self.held.pop(name)
        held.kill()
        held.wait()

    def end(self):
        for held in self.held.values():
            held.send_signal(signal.SIGCONT)
            held.terminate()
        for held in self.held.values():
            try:
                held.wait(10)
            except subprocess.TimeoutExpired:
                held.kill()
                held.wait()
        self.held.clear()


class Load:
    """Rides that some clients ask for one after the other, each from its own address or under one that a header tells. Each ride of all
    loads has other words, so that none is answered by a reply that was kept."""
    words = itertools.count(100000)

    def __init__(self, host, port, clients, rides, pause=0.02, source=None, headers=None):
        self.host, self.port, self.pause = host, port, pause
        self.source, self.headers = source or (lambda number: None), headers or (lambda number: {})
        self.answers, self.left, self.lock = [], rides, threading.Lock()
        self.threads = [threading.Thread(target=self.client, daemon=True) for _ in range(clients)]
        for thread in self.threads:
            thread.start()

    def next(self):
        with self.lock:
            self.left -= 1
            return self.left

    def client(self):
        while (number := self.next()) >= 0:
            begun = time.monotonic()
            what, version = self.ask(number)
            self.answers.append((what, time.monotonic() - begun, version))
            time.sleep(self.pause)

    def ask(self, number):
        """Whether a ride is right, or else its status or its fault; and the version of its map."""
        place = self.source(number)
        asked = http.client.HTTPConnection(self.host, self.port, timeout=60, source_address=(place, 0) if place else None)
        try:
            asked.request('GET', f'/brouter?{RIDE}&labels={next(self.words)}', headers=self.headers(number))
            answer = asked.getresponse()
            right = answer.status == 200 and cost(answer.read().decode()) == COST
            return 'right' if right else answer.status, answer.getheader('X-Map-Version')
        except (OSError, http.client.HTTPException) as fault:
            return type(fault).__name__, None
        finally:
            asked.close()

    def counts(self):
        """Waits for all rides, and counts how they were answered."""
        for thread in self.threads:
            thread.join()
        return collections.Counter(what for what, _, _ in self.answers)

    def tell(self, name, most=None):
        """Tells whether each ride is right, and the slowest came within so many seconds."""
        counts = self.counts()
        times = sorted(seconds for _, seconds, _ in self.answers)
        told(f'{name}: {counts["right"]} of {len(times)} rides right, the middle {times[len(times) // 2] * 1000:.0f} ms, '
             f'the slowest {times[-1]:.2f} s', set(counts) == {'right'} and (most is None or times[-1] < most), dict(counts))
