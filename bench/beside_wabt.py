#!/usr/bin/env python3
"""Times `check` on 1,000,000 positions in 16,000 functions, beside wabt's `wat2wasm` and `wasm-validate` on as many
instructions of WebAssembly, where these are installed (Debian's package `wabt`). Prints seconds and peak memory."""

import os
import shutil
import sys
import tempfile

from measuring import PROGRAM, measured, refuse_stale

FUNCTIONS = 16_000
PAIRS = 29

# The beginning of a text, a function with a branch, two codes that are repeated in it, one that every second function
# has more, and the end.
HHAS = (
    ".profile 1;\n",
    ".function f{number}() {{\n  True\n  JmpZ L\n{pairs}L:\n{extra}  Null\n  RetC\n}}\n",
    "  Int 7\n  PopC\n",
    "  Nop\n",
    "",
)
WAT = (
    "(module\n",
    "(func $f{number} (result i32)\n(block $l\ni32.const 1\nbr_if $l\n{pairs})\n{extra}i32.const 0\nreturn)\n",
    "i32.const 7\ndrop\n",
    "nop\n",
    ")\n",
)


def parts_of(begin, function, pair, extra, end):
    """The parts of a text of so many functions."""
    yield begin
    for number in range(FUNCTIONS):
        yield function.format(number=number, pairs=pair * PAIRS, extra=extra if number % 2 else "")
    yield end


def main():
    refuse_stale()
    with tempfile.TemporaryDirectory() as folder:
        text, module, binary = (os.path.join(folder, name) for name in ("text.hhas", "module.wat", "module.wasm"))
        for path, language in ((text, HHAS), (module, WAT)):
            with open(path, "w", encoding="ascii") as file:
                file.writelines(parts_of(*language))
        runs = [("hhbbc check", [PROGRAM, "check"], text)]
        if shutil.which("wat2wasm") and shutil.which("wasm-validate"):
            runs.append(("wat2wasm", ["wat2wasm", module, "-o", binary], os.devnull))
            runs.append(("wasm-validate", ["wasm-validate", binary], os.devnull))
        print(f"{'run':<16}{'seconds':>9}{'MiB':>9}")
        for name, words, path in runs:
            seconds, peak, status, _ = measured(words, path)
            print(f"{name:<16}{seconds:>9.3f}{peak:>9.1f}", flush=True)
            if status != 0:
                sys.exit(f"{name}: status {status}")


if __name__ == "__main__":
    main()
