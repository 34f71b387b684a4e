"""The month behind the door by itself: `python3 -m tests.shards [SEED]`."""
import random
import signal
import sys
import tempfile

from . import month

# what is ended from outside ends what it started
signal.signal(signal.SIGTERM, lambda *_: sys.exit(1))

if __name__ == "__main__":
    chosen = int(sys.argv[1]) if len(sys.argv) > 1 else random.randrange(10**6)
    with tempfile.TemporaryDirectory() as room:
        print(month.run(room, chosen))
