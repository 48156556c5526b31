"""A line on standard error every two seconds of long work."""
import sys
import threading
import time

PAUSE = 2.0


class Progress:
    """Tells what is being done, and how far it is, until it is left."""

    def __init__(self):
        self.doing, self.count = 'starting', lambda: ''
        self.begun = time.monotonic()
        self.ended = threading.Event()
        self.thread = threading.Thread(target=self._tell, daemon=True)

    def now(self, doing, count):
        """From now on `doing` is told, with the text that `count` gives."""
        self.doing, self.count = doing, count

    def _tell(self):
        while not self.ended.wait(PAUSE):
            seconds = time.monotonic() - self.begun
            print(f'osm2map: {self.doing}, {self.count()}, {seconds:.0f} s', file=sys.stderr, flush=True)

    def __enter__(self):
        self.thread.start()
        return self

    def __exit__(self, *_):
        self.ended.set()
        self.thread.join()
