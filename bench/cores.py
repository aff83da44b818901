"""On which core programs run that are measured in turn."""
import contextlib
import os


@contextlib.contextmanager
def one_core():
    """Programs that start within it take turns on one core.

    The cores of a shared machine differ, and they change from minute to minute.
    """
    all_of_them = os.sched_getaffinity(0)
    os.sched_setaffinity(0, {max(all_of_them)})
    try:
        yield
    finally:
        os.sched_setaffinity(0, all_of_them)
