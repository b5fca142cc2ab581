#!/usr/bin/env python3
"""Opens a file as often as possible, for 60 s or until SIGTERM. Prints `ready` and, at the end, how many times another user than its owner could open
the file, and how many times its text could then be read. If the owner runs it, the file's permissions decide.

usage: open_often.py FILE
"""
import os
import signal
import sys
import time

# Descriptors that are kept open until the end.
MOST = 500


def open_to_others(path):
    """Opens a file, and returns its descriptor if other users can open it, or None."""
    try:
        descriptor = os.open(path, os.O_RDONLY)
    except OSError:
        return None
    status = os.fstat(descriptor)
    if status.st_uid != os.geteuid() or status.st_mode & 0o077:
        return descriptor
    os.close(descriptor)
    return None


def main():
    path, opened, kept, stopped = sys.argv[1], 0, [], []
    signal.signal(signal.SIGTERM, lambda *_: stopped.append(True))
    print("ready", flush=True)
    end = time.monotonic() + 60
    while not stopped and time.monotonic() < end:
        descriptor = open_to_others(path)
        if descriptor is None:
            continue
        opened += 1
        if len(kept) < MOST:
            kept.append(descriptor)
        else:
            os.close(descriptor)
    texts = [os.pread(descriptor, 100, 0) for descriptor in kept]
    print(f"{opened} opened, {sum(map(bool, texts))} read")


if __name__ == "__main__":
    main()
