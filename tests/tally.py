"""What the tests in Python share: a count of what held and of what did not. Nothing here rests on `assert`, which Python leaves out
where PYTHONOPTIMIZE is set; tests/gate sees that no test does."""

import sys

SHOWN = 20

passed = failed = 0


def holds_that(what, got, wanted):
    """Counts one test. What it is about is a text, or a function that makes the text where it is needed."""
    global passed, failed
    if got == wanted:
        passed += 1
        return
    failed += 1
    if failed <= SHOWN:
        print(f"FAILED: {what() if callable(what) else what}: got {got!r}, wanted {wanted!r}", flush=True)


def must(condition, what):
    """Ends a test whose own making is wrong: a solver that fails, a case that is not what it is said to be."""
    if not condition:
        raise RuntimeError(what)


def end():
    """The last line of a test, and its status."""
    print(f"{passed} passed, {failed} failed", flush=True)
    sys.exit(failed > 0)
