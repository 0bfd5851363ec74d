#!/usr/bin/env python3
"""Times the built program on a long text: the first example, filled with white space to the longest text that is read.

Prints seconds and peak memory of each run, beside those of `wc -c` on the same file: the program annotating the
text, refusing a text with a fault at its end, and refusing one that is a byte too long; checking and running the text as
long as those commands take it, and refusing to run a longer one.
"""

import os
import sys
import tempfile

from measuring import PROGRAM, TOP, measured, refuse_stale

LIMIT = 16_777_216
RUN_LIMIT = 134_217_728


def filled(file, begin, size, end=b""):
    """Writes a text of so many bytes: its beginning, spaces, and its end. Little of it is in memory at a time."""
    file.write(begin)
    left = size - len(begin) - len(end)
    while left > 0:
        left -= file.write(b" " * min(left, 65_536))
    file.write(end)
    file.flush()


def main():
    with open(os.path.join(TOP, "examples", "first.hhas"), "rb") as example:
        text = example.read()
    refuse_stale()
    print(f"{'case':<12}{'bytes':>11}  {'run':<8}{'seconds':>9}{'MiB':>8}")
    for name, command, begin, size, end, wanted in [
        ("annotated", "analyze", text, LIMIT // 4, b"", 0),
        ("annotated", "analyze", text, LIMIT, b"", 0),
        ("bad text", "analyze", b".profile 1;", LIMIT // 4, b"x", 65),
        ("bad text", "analyze", b".profile 1;", LIMIT, b"x", 65),
        ("too long", "analyze", text, LIMIT + 1, b"", 69),
        ("ran", "run", text, LIMIT // 4, b"", 0),
        ("ran", "run", text, LIMIT, b"", 0),
        ("ran", "run", text, RUN_LIMIT, b"", 0),
        ("checked", "check", text, RUN_LIMIT, b"", 0),
        ("too long", "run", text, RUN_LIMIT + 1, b"", 69),
    ]:
        with tempfile.NamedTemporaryFile() as file:
            filled(file, begin, size, end)
            for run, words in (("hhbbc", [PROGRAM, command]), ("wc -c", ["wc", "-c"])):
                seconds, peak, status, _ = measured(words, file.name)
                print(f"{name:<12}{size:>11}  {run:<8}{seconds:>9.3f}{peak:>8.1f}")
                if run == "hhbbc" and status != wanted:
                    sys.exit(f"status {status}, wanted {wanted}")


if __name__ == "__main__":
    main()
