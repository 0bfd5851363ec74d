"""What the benches share: where the program is, and what one run takes."""

import os
import subprocess
import sys
import time

TOP = os.path.dirname(os.path.dirname(os.path.abspath(__file__)))
PROGRAM = os.path.join(TOP, "crates", "hhbbc_top", "out", "hhbbc_top")


def refuse_stale():
    """Ends the bench where the program isn't built, or a source is newer than it. A line says which."""
    status = subprocess.run([os.path.join(TOP, "tools", "fresh")], check=False).returncode
    if status != 0:
        sys.exit(status)


def measured(words, path=os.devnull):
    """Seconds, peak memory in MiB, the status of one run on a file, and what it writes to standard error."""
    began = time.perf_counter()
    with open(path, "rb") as text:
        child = subprocess.Popen(words, stdin=text, stdout=subprocess.DEVNULL, stderr=subprocess.PIPE)
        told = child.stderr.read()
        _, status, usage = os.wait4(child.pid, 0)
        child.stderr.close()
    return time.perf_counter() - began, usage.ru_maxrss / 1024, os.waitstatus_to_exitcode(status), told
