"""Tells each try as a line, and keeps which failed."""

FAILED = []


def told(name, right, found=''):
    print(f"{'ok  ' if right else 'FAIL'} {name}" + ('' if right else f': {found!r}'), flush=True)
    if not right:
        FAILED.append(name)
