"""Runs the tests of this folder, or of those files of it that fit a pattern. It says what is
skipped, with the number of tests. The last line is 'N passed, M failed'."""
import collections
import sys
import unittest
from pathlib import Path


class Result(unittest.TextTestResult):
    """What came of the tests, and how many have passed."""

    passed = 0

    def addSuccess(self, test):
        self.passed += 1
        super().addSuccess(test)


pattern = sys.argv[1] if len(sys.argv) > 1 else "test*.py"
suite = unittest.defaultTestLoader.discover(str(Path(__file__).parent), pattern)
runner = unittest.TextTestRunner(stream=sys.stdout, verbosity=0, resultclass=Result)
result = runner.run(suite)
failed = len(result.failures) + len(result.errors) + len(result.unexpectedSuccesses)
for why, count in collections.Counter(why for _, why in result.skipped).items():
    print(f"skipped {count}: {why}")
print(f"{result.passed} passed, {failed} failed")
sys.exit(failed > 0)
