"""An interrupt at one line of the package, as a test gives it."""

import contextlib
import sys


class Interrupt:
    """Interrupts at the given place, counted from 1, of the lines of some files."""

    def __init__(self, place, files):
        self.left = place
        self.files = files
        self.where = None

    def trace(self, frame, event, _):
        if frame.f_code.co_filename not in self.files:
            return None
        self.left -= 1
        if self.left == 0:
            self.where = f"{frame.f_code.co_name}, {event} at line {frame.f_lineno}"
            raise KeyboardInterrupt
        return self.trace


@contextlib.contextmanager
def tracing(interrupt):
    # Python 3.11.2 lets go of a trace function that raises while it calls it.
    before, trace = sys.gettrace(), interrupt.trace
    sys.settrace(trace)
    try:
        yield
    finally:
        sys.settrace(before)
