"""Runs the tests of this folder, and prints at last how many passed.

They run in a child of this process. A test that doesn't end, or with which the child ends, is a failure by its name, and the last.
"""

from __future__ import annotations

import os
import select
import signal
import sys
import unittest

# After so many seconds a test is taken not to end. The longest takes a few.
LONGEST = 300


class Told(unittest.TextTestResult):
    """Tells the parent of each test that begins, and of each that has passed."""

    told: int

    def startTest(self, test: unittest.TestCase) -> None:
        os.write(self.told, f"{test.id()}\n".encode())
        super().startTest(test)


def run_all(told: int) -> int:
    """Runs the tests, and tells how many have passed and failed: the status of the child."""
    Told.told = told
    suite = unittest.defaultTestLoader.discover(os.path.dirname(os.path.abspath(__file__)))
    result = unittest.TextTestRunner(stream=sys.stdout, resultclass=Told).run(suite)
    failed = len(result.failures) + len(result.errors) + len(result.skipped) + len(result.unexpectedSuccesses)
    print(f"{max(result.testsRun - failed, 0)} passed, {failed} failed", flush=True)
    return 1 if failed or not result.testsRun else 0


def watch(child: int, told: int, longest: float) -> int:
    """Waits for the child. If it doesn't end as it should, the test that it ran last has failed."""
    begun: list[str] = []
    fault = "didn't end"
    while select.select([told], [], [], longest)[0]:
        lines = os.read(told, 65_536).decode().split()
        if not lines:
            fault = "ended the tests"
            break
        begun += lines
    if fault == "didn't end":
        os.kill(child, signal.SIGKILL)
    status = os.waitstatus_to_exitcode(os.waitpid(child, 0)[1])
    if status in (0, 1) and fault != "didn't end":
        return status
    last = begun[-1] if begun else "the making of the tests"
    print(f"\nFAIL: {last} {fault}\n{max(len(begun) - 1, 0)} passed, 1 failed")
    return 1


def main() -> int:
    told, tells = os.pipe()
    child = os.fork()
    if child == 0:
        os.close(told)
        # A program that a test starts doesn't keep the pipe.
        os._exit(run_all(tells))
    os.close(tells)
    return watch(child, told, LONGEST)


if __name__ == "__main__":
    sys.exit(main())
