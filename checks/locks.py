"""The lock that a program has on its folder."""
import fcntl
import os
import time


def wait_for_lock():
    """Waits until nobody has this folder: a query server that was being started as the program was killed has its lock for a moment."""
    folder = os.open(".", os.O_RDONLY)
    for _ in range(500):
        try:
            fcntl.flock(folder, fcntl.LOCK_EX | fcntl.LOCK_NB)
            break
        except BlockingIOError:
            time.sleep(0.01)
    os.close(folder)
