"""Trials that hang on time, on a machine that is lent out and stands still at times."""

import os
import threading
import time

from serving import taken

PAUSE = 0.005
# What such a pause takes at most where the machine goes on.
LONGEST = 0.006
# So much more than that, in all, is a machine that stood still during a trial.
STILL = 0.05
ATTEMPTS = 10


class Watch:
    """Adds up for how long the machine stood still: a thread pauses in turn, and looks how long that took.

    From here on all runs on one processor, so that what keeps a program waiting keeps the watch waiting.
    """

    def __init__(self):
        os.sched_setaffinity(0, {max(os.sched_getaffinity(0))})
        self.again = 0
        # For how long until the pause that isn't over yet, and when that began.
        self.seen = 0.0, time.monotonic()
        threading.Thread(target=self.goes_on, daemon=True).start()

    def goes_on(self):
        while True:
            time.sleep(PAUSE)
            self.seen = self.stood_still(), time.monotonic()

    def stood_still(self):
        """For how long the machine stood still until now."""
        still, begun = self.seen
        return still + max(time.monotonic() - begun - LONGEST, 0)

    def calmly(self, trial):
        """What a trial finds. If that isn't as expected and the machine stood still, it is made again."""
        for attempt in range(ATTEMPTS):
            before = self.stood_still()
            found, error = taken(trial)
            right = not error and all(got == expected for _, got, expected in found)
            if right or self.stood_still() - before < STILL:
                break
        self.again += attempt
        yield from found
        if error:
            raise error
