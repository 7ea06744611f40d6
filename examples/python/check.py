#!/usr/bin/env python3
"""Writes to standard output whether a compound file is sound, or its fault and where that is, by a shared library linked from
libolecon:

    check.py LIBRARY FILE            one line
    check.py LIBRARY FILE json       one JSON value

The status is 3 where the file is at fault or refused, whose fault is named on standard error.
"""

import ctypes
import sys

from extract import answered, named


def main():
    if len(sys.argv) not in (3, 4):
        print("check.py LIBRARY FILE [json]", file=sys.stderr)
        return 2
    library = ctypes.CDLL(sys.argv[1])
    with open(sys.argv[2], "rb") as file:
        content = file.read()
    told = ctypes.c_uint32(0)
    fault, out = answered(library.olecon_check_json if len(sys.argv) == 4 else library.olecon_check, content, told=[told])
    sys.stdout.buffer.write(out)
    if fault or told.value:
        print(named(library, fault or told.value), file=sys.stderr)
        return 3
    return 0


if __name__ == "__main__":
    sys.exit(main())
