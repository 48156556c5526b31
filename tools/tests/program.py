"""The program that the tools are compared with: that of the word PROGRAM of the environment, or the one that `./build` makes."""
import os
import subprocess

TOP = os.path.dirname(os.path.dirname(os.path.dirname(os.path.abspath(__file__))))
EXAMPLES = os.path.join(TOP, 'examples')


def path():
    """Where the program is; an error where it isn't there."""
    found = os.environ.get('PROGRAM', os.path.join(TOP, 'crates', 'route_serve', 'out', 'route_serve'))
    if not os.path.exists(found):
        raise FileNotFoundError(f'no program at {found}: PROGRAM=.. names one, ./build makes it')
    return found


def run(*words):
    """The status, the output and the line of the refusal of a command."""
    done = subprocess.run([path(), *words], stdout=subprocess.PIPE, stderr=subprocess.PIPE, check=False, timeout=120)
    return done.returncode, done.stdout, done.stderr.decode('utf-8', 'replace').strip()


def code(profile, table):
    """The flat code of a profile's file under a table's file, or else the refusal without the word that it names."""
    status, out, line = run('code', f'lookups={table}', f'profile={profile}')
    if status == 0:
        return out, ''
    return None, line.split(': ', 1)[1] if line.startswith('word ') else line
