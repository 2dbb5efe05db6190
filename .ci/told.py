"""How .ci/tools and .ci/browser run tests: each `*_test.py` of a folder, or those that are named."""

import unittest


class Told(unittest.TestResult):
    """Tells what fails as it fails."""

    def addFailure(self, test, error):
        super().addFailure(test, error)
        print(f'FAILED {test.id()}\n{self.failures[-1][1]}', flush=True)

    def addError(self, test, error):
        super().addError(test, error)
        print(f'FAILED {test.id()}\n{self.errors[-1][1]}', flush=True)

    def addSkip(self, test, reason):
        super().addSkip(test, reason)
        print(f'not run: {test.id()}: {reason}')


def status_of(title, folder, names):
    """Runs tests, tells how many passed, and answers the status."""
    loader, result = unittest.defaultTestLoader, Told()
    (loader.loadTestsFromNames(names) if names else loader.discover(folder, '*_test.py')).run(result)
    failed = len(result.failures) + len(result.errors)
    print(f'{title}: {result.testsRun - failed - len(result.skipped)} passed, {failed} failed')
    return 1 if failed or not result.testsRun else 0
