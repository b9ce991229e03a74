"""Runs the tests of this folder, or of some modules of it. The last line is 'N passed, M failed'.

    NUZ=COMMAND python3 bindings/mount/tests [MODULE..]

NUZ is the command nuz; with WHOLE=1 the tests take as much as they are meant to, and not what a
gate has time for.
"""
import faulthandler
import sys
import unittest
from pathlib import Path

faulthandler.enable()
here = Path(__file__).parent
sys.path.insert(0, str(here))
loader = unittest.defaultTestLoader
names = sys.argv[1:]
suite = loader.loadTestsFromNames(names) if names else loader.discover(str(here))
result = unittest.TextTestRunner(stream=sys.stdout, verbosity=0).run(suite)
# (a test counts once, however many of its parts have failed)
faults = {getattr(test, "test_case", test).id() for test, _ in result.failures + result.errors}
failed = len(faults)
for test, why in result.skipped:
    print(f"skipped: {test.id()}: {why}")
print(f"{max(0, result.testsRun - failed - len(result.skipped))} passed, {failed} failed")
sys.exit(failed > 0)
