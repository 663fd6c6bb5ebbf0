"""Runs the tests of one file, and prints what they print only if one fails. Imported first, it lets a test import from tools/."""
import io
import pathlib
import sys
import unittest

sys.dont_write_bytecode = True      # no generated folder beside the sources
sys.path.insert(0, str(pathlib.Path(__file__).resolve().parent.parent / "tools"))


def counted(subject):
    """Says how many tests of the calling program passed, and gives its status: none is no success either."""
    output = io.StringIO()
    result = unittest.TextTestRunner(stream=output).run(unittest.defaultTestLoader.loadTestsFromModule(sys.modules["__main__"]))
    if not result.wasSuccessful() or result.skipped or not result.testsRun:
        print(output.getvalue())
        return 1
    print(f"{subject}: {result.testsRun} tests passed")
    return 0
