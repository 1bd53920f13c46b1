"""Runs the tests of the package for Python that is installed, all but that of little memory: a program under qemu
gets any limit of memory granted, and keeps none."""
import platform
import sys
import unittest

import polytwkb


def without_little_memory(suite):
    if isinstance(suite, unittest.TestSuite):
        return unittest.TestSuite(without_little_memory(test) for test in suite)
    return unittest.TestSuite([] if "little_memory" in suite.id() else [suite])


# Processes that a test starts read this file too, and run no tests.
if __name__ == "__main__":
    if platform.machine() != "aarch64" or "/wheel/" not in polytwkb.__file__:
        sys.exit(f"{platform.machine()}, {polytwkb.__file__}")
    ran = unittest.TextTestRunner().run(without_little_memory(unittest.defaultTestLoader.discover(".")))
    sys.exit(not ran.wasSuccessful())
