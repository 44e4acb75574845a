"""Room on a machine for checks that run side by side."""

import contextlib
import threading

# More memory than any machine has: who asks for it runs by itself.
ALL = float("inf")


class Places:
    """So many places, and so many bytes of memory that those who have one share."""

    def __init__(self, most, memory):
        self.most, self.memory, self.taken, self.changed = most, memory, [], threading.Condition()

    def set(self, most, memory):
        with self.changed:
            self.most, self.memory = most, memory
            self.changed.notify_all()

    def has_room(self, size):
        """Whether one that takes so many bytes may begin: the first always may."""
        return not self.taken or len(self.taken) < self.most and sum(self.taken) + size <= self.memory

    @contextlib.contextmanager
    def one(self, size):
        """Waits for a place and so many bytes, and has them meanwhile."""
        with self.changed:
            self.changed.wait_for(lambda: self.has_room(size))
            self.taken.append(size)
        try:
            yield
        finally:
            with self.changed:
                self.taken.remove(size)
                self.changed.notify_all()
