#!/usr/bin/env python3
"""Times the built program on generated texts of the whole language, and prints seconds and peak memory of each run.

The texts are made as they are needed, in a folder for temporary files: codes of 1, 4 and 16 MiB, many functions that
call each other, deeply nested try bodies, and a string as long as the longest text.
"""

import os
import sys
import tempfile

from measuring import PROGRAM, measured, refuse_stale

MIB = 1 << 20
BEGIN = b".profile 1;\n"


def codes_of(size):
    """Functions of 1,000 codes each, together about so many bytes."""
    codes = b"  Int 7\n  PopC\n" * 500
    written = 0
    number = 0
    yield BEGIN
    while written < size:
        part = b".function f%d() {\n%s  Null\n  RetC\n}\n" % (number, codes)
        written += len(part)
        number += 1
        yield part


def calls_of(count):
    """So many functions, each of which calls the next."""
    yield BEGIN
    for number in range(count):
        yield b".function f%d() { NullUninit NullUninit FCallFuncD 0 f%d RetC }\n" % (number, (number + 1) % count)


def nested_tries(depth):
    """So many try bodies within each other."""
    yield BEGIN + b".function main() {\n"
    for _ in range(depth // 1000):
        yield b".try {\n" * 1000
    yield b"Nop\n"
    for _ in range(depth // 1000):
        yield b"} .catch { PopC }\n" * 1000
    yield b"Null RetC }\n"


def long_string(size):
    """A text of so many bytes, most of them in a string."""
    begin = BEGIN + b'.function main() { String "'
    yield begin
    left = size - len(begin)
    while left > 0:
        part = min(left, 65_536)
        yield b"a" * part
        left -= part


def cases():
    """Names of texts, their commands, their parts, and the statuses that are wanted."""
    for size in (1, 4, 16):
        yield f"codes, {size} MiB", "check", codes_of(size * MIB), (0,)
    for size in (1, 4, 16):
        yield f"codes, {size} MiB", "fmt", codes_of(size * MIB), (0,)
    for count in (16_384, 65_535):
        yield f"{count:,} functions", "check", calls_of(count), (0,)
    for depth in (150_000, 600_000):
        yield f"{depth:,} try bodies", "check", nested_tries(depth), (66,)
    for size in (32, 128):
        yield f"string, {size} MiB", "check", long_string(size * MIB), (65,)


def main():
    refuse_stale()
    print(f"{'text':<20}{'command':<9}{'bytes':>12}{'seconds':>9}{'MiB':>9}  says")
    for name, command, parts, wanted in cases():
        with tempfile.NamedTemporaryFile() as file:
            for part in parts:
                file.write(part)
            file.flush()
            size = os.path.getsize(file.name)
            seconds, peak, status, told = measured([PROGRAM, command], file.name)
        print(f"{name:<20}{command:<9}{size:>12}{seconds:>9.3f}{peak:>9.1f}  {told.decode(errors='replace').strip()}", flush=True)
        if status not in wanted:
            sys.exit(f"status {status}, wanted one of {wanted}")


if __name__ == "__main__":
    main()
