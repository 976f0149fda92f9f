"""What the tests share."""
import threading
import time
import unittest


class CacheTest(unittest.TestCase):
    def holds_exactly(self, cache, entries=None):
        """This side keeps what the library holds, as many entries if that is given, and no load is open."""
        numbers = cache.numbers()
        self.assertEqual((cache.kept(), numbers["flights"]), ((numbers["entries"],) * 2, 0))
        if entries is not None:
            self.assertEqual(numbers["entries"], entries)


def never(key):
    """The loader of a call that joins another's load, or finds a value."""
    raise AssertionError("%r is loaded" % (key,))


def wait_for_joins(cache, joins):
    """Waits until so many callers have joined a load."""
    while cache.stats().joins < joins:
        time.sleep(0.001)


def together(threads, work):
    """Runs work(i) in so many threads at once, and raises what one of them raised."""
    gate, raised = threading.Barrier(threads), []

    def run(i):
        gate.wait()
        try:
            work(i)
        except BaseException as error:
            raised.append(error)

    runs = [threading.Thread(target=run, args=(i,)) for i in range(threads)]
    for run_of in runs:
        run_of.start()
    for run_of in runs:
        run_of.join()
    if raised:
        raise raised[0]


def within_a_minute(work):
    """What work() returned or raised. A minute is far more than it needs: a thread that is still at work then hangs."""
    told = {}

    def run():
        try:
            told["value"] = work()
        except BaseException as error:
            told["error"] = error

    thread = threading.Thread(target=run, daemon=True)
    thread.start()
    thread.join(60)
    if thread.is_alive():
        raise AssertionError("it hangs")
    if "error" in told:
        raise told["error"]
    return told["value"]
