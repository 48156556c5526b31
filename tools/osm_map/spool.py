"""Records that wait on the disk, so that the memory holds none of them."""
import pickle
import tempfile

BATCH = 500


class Spool:
    """Records in the order in which they were added."""

    def __init__(self, folder):
        self.file = tempfile.TemporaryFile(dir=folder)
        self.batch = []

    def add(self, record):
        self.batch.append(record)
        if len(self.batch) == BATCH:
            self._put()

    def _put(self):
        pickle.dump(self.batch, self.file, protocol=5)
        self.batch = []

    def __iter__(self):
        self._put()
        self.file.seek(0)
        while True:
            try:
                batch = pickle.load(self.file)
            except EOFError:
                return
            yield from batch

    def close(self):
        self.file.close()
