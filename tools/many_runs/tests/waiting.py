"""Waits for a tool that a test has started."""
import time


def wait_for(holds, seconds=300):
    """Waits until something holds, and fails where it never does."""
    end = time.monotonic() + seconds
    while not holds():
        if time.monotonic() > end:
            raise AssertionError("waited in vain")
        time.sleep(0.05)
