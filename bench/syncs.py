#!/usr/bin/env python3
"""Times how long the syncs of 1,024 new files of 300 bytes take, by one thread and by several at once: for each the least of three rounds.
The folder is made below the one that is named, or below the current one.

    bench/syncs.py [FOLDER]
"""
import os
import shutil
import sys
import tempfile
import threading
import time

FILES, ROUNDS = 1024, 3


def sync_some(folder, numbers):
    for number in numbers:
        opened = os.open(f"{folder}/{number}", os.O_RDONLY)
        os.fsync(opened)
        os.close(opened)


def seconds(folder, threads):
    os.mkdir(folder)
    for number in range(FILES):
        with open(f"{folder}/{number}", "wb") as file:
            file.write(bytes(300))
    started = [threading.Thread(target=sync_some, args=(folder, range(first, FILES, threads))) for first in range(threads)]
    began = time.monotonic()
    for thread in started:
        thread.start()
    for thread in started:
        thread.join()
    took = time.monotonic() - began
    shutil.rmtree(folder)
    return took


def main():
    place = tempfile.mkdtemp(dir=sys.argv[1] if len(sys.argv) > 1 else ".")
    counts = (1, 4, 16, 64)
    rounds = [[seconds(f"{place}/files", threads) for threads in counts] for _ in range(ROUNDS)]
    for at, threads in enumerate(counts):
        least = min(times[at] for times in rounds)
        print(f"{threads:>3} threads: {least:.3f} s, {1000 * least / FILES:.2f} ms a file; load {os.getloadavg()[0]:.1f}")
    shutil.rmtree(place)


if __name__ == "__main__":
    main()
