#!/usr/bin/env python3
"""Writes to standard output the file that the lines of standard input make of another one, which stays as it is, by a shared library
linked from libolecon:

    edit.py LIBRARY FILE < LINES > NEW

The status is 3 where the file or a line is refused, whose fault is named on standard error, behind the number of the line.
"""

import ctypes
import sys

from extract import answered, named


def main():
    if len(sys.argv) != 3:
        print("edit.py LIBRARY FILE", file=sys.stderr)
        return 2
    library = ctypes.CDLL(sys.argv[1])
    with open(sys.argv[2], "rb") as file:
        content = file.read()
    line = ctypes.c_size_t(0)
    fault, out = answered(library.olecon_edit_line, content, sys.stdin.buffer.read(), told=[line])
    if fault:
        print(f"line {line.value}: " * (line.value > 0) + named(library, fault), file=sys.stderr)
        return 3
    sys.stdout.buffer.write(out)
    return 0


if __name__ == "__main__":
    sys.exit(main())
