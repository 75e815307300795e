"""What the tests of lapd-gateway count, and what they skip."""
import os
import threading
import time
import traceback

counted = {True: 0, False: 0}
lock = threading.Lock()


class Missing(Exception):
    """Something is not installed that a test needs."""


def check(name, good, why=""):
    """Counts a test; what fails is told. Whether it is good."""
    with lock:
        counted[bool(good)] += 1
        if not good:
            print(f"gateway: {name}: {why}", flush=True)
    return bool(good)


def say(text):
    with lock:
        print(f"gateway: {text}", flush=True)


def skip(what, why):
    """What can't be tested here. It fails if all has to be."""
    if os.environ.get("GATEWAY") == "required":
        check(what, False, f"GATEWAY=required, and {why}")
    else:
        say(f"SKIPPED: {what}, since {why}")


def each(place, *tests):
    """Tests one after the other: what stops one fails, and the others go on."""
    for test in tests:
        try:
            test(place)
        except Missing as why:
            skip(test.__name__, why)
        except Exception:  # what it is does not matter: it is told
            check(test.__name__, False, traceback.format_exc(limit=-4))


class Lateness:
    """How late the machine itself is in `with`: how much longer than asked a nap of a millisecond takes, at most. What is to happen
    within some time may happen so much later if other work keeps the processors."""
    NAP = 0.001

    def __enter__(self):
        self.seconds, self.is_over = 0.0, False
        self.thread = threading.Thread(target=self._naps)
        self.thread.start()
        return self

    def __exit__(self, *_):
        self.is_over = True
        self.thread.join()

    def _naps(self):
        while not self.is_over:
            begun = time.monotonic()
            time.sleep(self.NAP)
            self.seconds = max(self.seconds, time.monotonic() - begun - self.NAP)
