"""Runs all tests, or those of the modules that are named: python3 -m tests [MODULE ..].

The last line counts them.
"""
from __future__ import annotations

import signal
import sys
import unittest
from pathlib import Path

FOLDER = Path(__file__).resolve().parent
ORDER = (
    "test_parts", "test_client_names", "test_convert", "test_taking", "test_copies", "test_bounds",
    "test_server", "test_operation", "test_dav", "test_recorded", "test_litmus", "test_cards",
    "test_offers", "test_import", "test_hostile", "test_clients", "test_syncevolution",
    "test_page_parts", "test_page", "test_page_office", "test_page_work",
)


class Counted(unittest.TextTestResult):
    """A result that counts what passed."""

    passed = 0

    def addSuccess(self, test: unittest.TestCase) -> None:  # noqa: N802
        """One test passed."""
        super().addSuccess(test)
        self.passed += 1


def end(*_: object) -> None:
    """Ends the run: unittest takes any other exception for a fault of one test, and goes on."""
    raise KeyboardInterrupt


def main(words: list[str]) -> int:
    """Status 0 where none failed, 143 where it was ended by TERM or INT."""
    signal.signal(signal.SIGTERM, end)
    names = [f"tests.{word.removesuffix('.py')}" for word in words or ORDER]
    left_out = {path.stem for path in FOLDER.glob("test_*.py")} - set(ORDER)
    if left_out:
        print(f"not in the order of tests: {', '.join(sorted(left_out))}")
        return 1
    tests = unittest.defaultTestLoader.loadTestsFromNames(names)
    runner = unittest.TextTestRunner(stream=sys.stdout, verbosity=2, resultclass=Counted)
    try:
        result = runner.run(tests)
    except KeyboardInterrupt:
        print("The run was ended before its end.")
        return 143
    failed = len(result.failures) + len(result.errors)
    for test, reason in result.skipped:
        print(f"skipped: {test}: {reason}")
    print(f"{result.passed} passed, {failed} failed, {len(result.skipped)} skipped")
    return 0 if result.wasSuccessful() else 1


if __name__ == "__main__":
    sys.exit(main(sys.argv[1:]))
