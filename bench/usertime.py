#!/usr/bin/env python3
"""usertime.py INPUT OUTPUT COMMAND...

Runs the command on a file several times and prints its best user time, in
seconds.

A system that samples by ticks knows the processor time of a run exactly, but
for a short run it tells user from system time only roughly. So the time printed
is that of the best run times the user's share in all of them.
"""
import os
import subprocess
import sys

LEAST_RUNS = 5
LEAST_SECONDS = 1.5


def once(source, target, command):
    """User and system time of one run."""
    with open(source, "rb") as stdin, open(target, "wb") as stdout:
        process = subprocess.Popen(command, stdin=stdin, stdout=stdout)
        _, status, used = os.wait4(process.pid, 0)
    process.returncode = os.waitstatus_to_exitcode(status)
    if process.returncode != 0:
        sys.exit(f"usertime.py: {' '.join(command)} ended with {process.returncode}")
    return used.ru_utime, used.ru_stime


def best(source, target, command):
    user, totals = 0, []
    while len(totals) < LEAST_RUNS or sum(totals) < LEAST_SECONDS:
        times = once(source, target, command)
        user += times[0]
        totals.append(sum(times))
    return min(totals) * user / sum(totals)


if __name__ == "__main__":
    if len(sys.argv) < 4:
        sys.exit("usage: usertime.py INPUT OUTPUT COMMAND...")
    print(f"{best(sys.argv[1], sys.argv[2], sys.argv[3:]):.6f}")
