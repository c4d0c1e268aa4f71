"""What the tests of this folder share."""

import importlib.machinery
import importlib.util
import pathlib
import sys
import unittest

TOP = pathlib.Path(__file__).resolve().parent.parent


def imported(name):
    """A program in Python at the top of the repository, as a module."""
    loader = importlib.machinery.SourceFileLoader(name, str(TOP / name))
    module = importlib.util.module_from_spec(importlib.util.spec_from_loader(name, loader))
    loader.exec_module(module)
    return module


def run_tests():
    """Runs the tests of the program that calls this, prints at last how many passed, and answers the status."""
    result = unittest.main(exit=False, testRunner=unittest.TextTestRunner(stream=sys.stdout)).result
    failed = len(result.failures) + len(result.errors) + len(result.skipped) + len(result.unexpectedSuccesses)
    print(f"{max(result.testsRun - failed, 0)} passed, {failed} failed")
    return 1 if failed or not result.testsRun else 0
