"""Runs a command, and prints the largest resident size that it had itself, in KiB, its children left out: bench/peak.py COMMAND.. The status is that of the
command, or 1 if it ended before it was seen."""
import subprocess
import sys

from peaks import Peak

run = subprocess.Popen(sys.argv[1:], stdin=sys.stdin, stdout=subprocess.DEVNULL)
peak = Peak(run.pid)
status = run.wait()
most = peak.kib()
print(most)
sys.exit(status or most == 0)
