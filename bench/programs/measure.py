#!/usr/bin/env python3
"""Runs a command and prints its processor seconds and the most kilobytes that it held:
measure.py COMMAND..

Its output goes to the file `out`, and what it says on standard error to `said`. How it ends is not
looked at.
"""
import resource
import subprocess
import sys

with open("out", "wb") as out, open("said", "wb") as said:
    subprocess.run(sys.argv[1:], stdin=subprocess.DEVNULL, stdout=out, stderr=said, check=False)
used = resource.getrusage(resource.RUSAGE_CHILDREN)
print(f"{used.ru_utime + used.ru_stime:.3f} {used.ru_maxrss}")
