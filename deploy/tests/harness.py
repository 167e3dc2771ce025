"""Test harness: a line for each failed check and each note, and a last line that .ci/deploy reads: PASS, FAIL or SKIPPED."""
import os
import signal
import sys

sys.path.insert(0, os.path.dirname(os.path.dirname(os.path.abspath(__file__))))
from stack import Missing  # noqa: E402

checks, failures = [], []


def check(name, passed, detail=""):
    """Records one check and returns its result. Prints `detail` if it failed."""
    checks.append(name)
    if not passed:
        failures.append(name)
        print(f"  FAILED {name}: {str(detail)[:700]}", flush=True)
    return passed


def note(*words):
    print(" ", *words, flush=True)


def finish():
    """Prints the last line and exits with status 1 if a check failed."""
    print(f"{'FAIL' if failures else 'PASS'}: {len(checks)} checks, {len(failures)} failed")
    sys.exit(bool(failures))


def run(test):
    """Runs a test. Skips it if a requirement is missing. On SIGTERM it stops its processes."""
    signal.signal(signal.SIGTERM, lambda *_: sys.exit(143))
    try:
        test()
    except Missing as missing:
        print(f"SKIPPED: missing: {missing}")
        sys.exit(3)
    finish()
