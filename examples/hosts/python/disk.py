#!/usr/bin/env python3
"""The same as ../c/disk.c, from Python: printf 'put k value\\nget k\\nfill 3\\n' | python3 disk.py FILE"""
import fcntl
import os
import sys

import sandbox

GUEST = sys.argv[2] if len(sys.argv) > 2 else f"{os.path.dirname(os.path.abspath(__file__))}/../../c/keys.wasm"


def run(module, disk, words):
    """One session over the volume on the descriptor: the status that the guest exited with."""
    volume = os.pread(disk, os.fstat(disk).st_size // 512 * 512, 0)
    with module.session(args=["keys", "store", *words], volume=volume, recorded=True) as session:
        told, used, shown = None, 0, 0
        while told is None or told.kind == sandbox.CALLED:
            told = session.resume(10**7 - used)
            session.settle(disk)  # a sync of the guest lasts from here on
            said = session.output(start=shown)
            sys.stdout.buffer.write(said)
            sys.stdout.buffer.flush()
            used, shown = told.used, shown + len(said)
        session.finish()
        session.settle(disk)  # and all that it did from here on
        return told.code if told.kind == sandbox.EXITED else 255


def main():
    disk = sandbox.apart(os.open(sys.argv[1], os.O_RDWR | os.O_CREAT, 0o666))
    fcntl.flock(disk, fcntl.LOCK_EX | fcntl.LOCK_NB)
    if os.fstat(disk).st_size == 0:
        os.pwrite(disk, sandbox.empty_volume(1000, 16), 0)
        os.fsync(disk)
    with open(GUEST, "rb") as it:
        module = sandbox.Module(it.read())
    for line in sys.stdin or ():
        status = run(module, disk, line.split())
        sys.stdout.buffer.write(f"{status}\n".encode())
        sys.stdout.buffer.flush()


main()
