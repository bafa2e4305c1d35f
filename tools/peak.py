#!/usr/bin/env python3
"""Runs a command and says how much memory the largest process of it took: tools/peak.py MOST WORD..

Ends with the command's status, or, where that is 0, with 1 if that process took more than MOST GB (of 10^9 bytes)."""
import resource
import subprocess
import sys


def main(most, *words):
    status = subprocess.run(words).returncode
    peak = resource.getrusage(resource.RUSAGE_CHILDREN).ru_maxrss * 1024 / 1e9
    print(f"the largest process of {' '.join(words)} took {peak:.2f} GB, of {most} at most", flush=True)
    return status or peak > float(most)


sys.exit(main(*sys.argv[1:]))
