"""What stands before and behind the page: a folder of the page with its settings, nginx by `dist/nginx.conf`, and processes of the
program."""
import json
import os
import shutil
import signal
import socket
import subprocess
import sys
import time
import urllib.error
import urllib.parse
import urllib.request

TOP = os.path.dirname(os.path.dirname(os.path.dirname(os.path.abspath(__file__))))
TOWN = os.path.join(TOP, 'examples')
FRONT = 'http://127.0.0.1:8080'
PORTS = (17777, 17778)


def program():
    if 'PROGRAM' in os.environ:
        return os.path.abspath(os.environ['PROGRAM'])
    path = os.path.join(TOP, 'crates', 'route_serve', 'out', 'route_serve')
    if not os.path.exists(path):
        subprocess.run([os.path.join(TOP, 'build')], check=True, stdout=subprocess.DEVNULL)
    return path


def is_open(port):
    with socket.socket() as probe:
        return probe.connect_ex(('127.0.0.1', port)) == 0


def wait_for(port):
    for _ in range(1200):
        if is_open(port):
            return
        time.sleep(0.1)
    sys.exit(f'nothing listens at port {port}')


def reply(query):
    """What the server answers: a track."""
    return json.loads(answer(f'/brouter?{urllib.parse.quote(query, safe="=&|,.:")}'))['features'][0]


def answer(path):
    with urllib.request.urlopen(FRONT + path) as got:
        return got.read().decode()


class Front:
    """A folder that nginx serves, with the files of the town, and the processes behind it."""

    def __init__(self, room):
        self.room, self.held, self.nginx = room, [], None
        self.web = os.path.join(room, 'web')
        self.files = os.path.join(room, 'files')
        shutil.copytree(os.path.join(TOP, 'web'), self.web)
        shutil.copytree(TOWN, self.files)
        subprocess.run([sys.executable, 'town.py', self.files], cwd=TOWN, check=True, stdout=subprocess.DEVNULL)

    def start_nginx(self):
        """nginx by the file of `dist/` with its folders replaced."""
        room = self.room
        with open(os.path.join(TOP, 'dist', 'nginx.conf'), encoding='utf-8') as file:
            text = file.read()
        for folder, ours in (('/srv/route_serve/web', self.web), ('/srv/route_serve/', self.files + '/'), ('/var/log/nginx/', room + '/'),
                             ('/var/lib/nginx/', room + '/'), ('/run/route_serve/', room + '/run/')):
            text = text.replace(folder, ours)
        with open(f'{room}/front.conf', 'w', encoding='utf-8') as file:
            file.write(text)
        paths = ''.join(f'{kind}_temp_path {room}/{kind};\n' for kind in ('client_body', 'proxy', 'fastcgi', 'uwsgi', 'scgi'))
        user = 'user root;\n' if os.geteuid() == 0 else ''
        with open(f'{room}/nginx.conf', 'w', encoding='utf-8') as file:
            file.write(f'{user}daemon off;\npid {room}/nginx.pid;\nerror_log {room}/error.log;\nevents {{ }}\n'
                       f'http {{\ninclude /etc/nginx/mime.types;\n{paths}include {room}/front.conf;\n}}\n')
        self.nginx = subprocess.Popen(['nginx', '-c', f'{room}/nginx.conf'], stderr=subprocess.DEVNULL)
        wait_for(8080)

    def start_processes(self, words=None):
        """Two processes, on the town where no other words are given."""
        words = words or ['lookups=lookups.dat', 'map=town.json', 'tile=N49E008.hgt', 'profile=trekking.brf', 'profile=road.brf',
                          'profile=careful.brf', 'profile=gravel.brf']
        self.held = [subprocess.Popen([program(), 'serve', *words, f'listen=127.0.0.1:{port}', 'hangup=1'], cwd=self.files) for port in PORTS]
        for port in PORTS:
            wait_for(port)

    def stop_processes(self):
        for each in self.held:
            each.send_signal(signal.SIGTERM)
        for each in self.held:
            each.wait()
        self.held = []

    def stop(self):
        self.stop_processes()
        if self.nginx:
            self.nginx.send_signal(signal.SIGTERM)
            self.nginx.wait()

    def settings(self, **changed):
        """Writes settings.json anew: that of the repository with these keys changed."""
        with open(os.path.join(TOP, 'web', 'settings.json'), encoding='utf-8') as file:
            self.write('settings.json', json.dumps({**json.load(file), **changed}))

    def write(self, name, text):
        with open(os.path.join(self.web, name), 'w', encoding='utf-8') as file:
            file.write(text)
