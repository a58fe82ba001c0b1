"""Runs the unittest tests of a module of this folder.

    unit_tests.py MODULE

Says what was skipped. Exit status 0: there are tests, and none failed.
"""

import sys
import unittest


def main():
    suite = unittest.defaultTestLoader.loadTestsFromName(sys.argv[1])
    result = unittest.TextTestRunner(verbosity=0).run(suite)
    for test, reason in result.skipped:
        print('SKIPPED: %s: %s' % (test.id(), reason))
    print('%s: %d tests, %d skipped' % (sys.argv[1], result.testsRun,
                                        len(result.skipped)))
    return 0 if result.testsRun and result.wasSuccessful() else 1


if __name__ == '__main__':
    sys.exit(main())
