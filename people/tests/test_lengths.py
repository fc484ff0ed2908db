"""Tests of long sessions: four times the events take about four times the time, and not sixteen times."""
import gc
import time
import unittest

from people.composing import compose
from people.drawing import draw
from people.explaining import explain
from people.playing import pair, whole
from people.reading import read_run
from people.timeline import trace

# What is compared, and how far apart the two times may be.
SHORT, TIMES, MOST = 3000, 4, 9
ROUND = [("start 0 3:2 5:1", 0), ("start 1 3:1 7:0", 0), ("call 0 3 spend 1", 1), ("call 0 3 add 1", 100), ("call 0 5 write 7", 0),
         ("call 1 3 read", 100), ("call 1 7 add 3", 3), ("commit 0 1", 20), ("release 1 7", 0), ("rollback 1 2", 20)]


def session(events):
    """A session of rounds that leave all words but one as they were, with its lines."""
    items = [ROUND[place % len(ROUND)] for place in range(events)]
    return "\n".join(["fresh 0 3=100"] + [item for item, _ in items]), [f"{place} 0 {value}" for place, (_, value) in enumerate(items, 1)]


def taken(work):
    """The least time of the processor that some work takes."""
    times = []
    for _ in range(2):
        gc.collect()
        before = time.process_time()
        work()
        times.append(time.process_time() - before)
    return min(times)


class Lengths(unittest.TestCase):
    def linear(self, work):
        short, long = session(SHORT), session(SHORT * TIMES)
        self.assertLess(taken(lambda: work(*long)) / taken(lambda: work(*short)), MOST)

    def test_composing(self):
        self.linear(lambda text, lines: compose(text))

    def test_reading(self):
        # Copies are quick: only in long runs do those of all that is left show.
        records = compose(session(SHORT)[0]) * 12
        times = [taken(lambda count=count: sum(1 for _ in read_run([records * count]))) for count in (1, TIMES)]
        self.assertLess(times[1] / times[0], MOST)

    def test_explaining(self):
        self.linear(lambda text, lines: [*explain(pair(compose(text), lines))])

    def test_drawing(self):
        self.linear(lambda text, lines: [*draw(trace(pair(compose(text), lines)))])

    def test_passing_on(self):
        self.linear(lambda text, lines: [*whole(compose(text), lines)])
