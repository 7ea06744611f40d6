#!/usr/bin/env python3
"""Lists a compound file, or writes one of its streams to standard output, by a shared library linked from libolecon:

    extract.py LIBRARY FILE          the listing
    extract.py LIBRARY FILE PATH     the bytes of the stream at PATH

The status is 3 where the file or the path is refused, whose fault is named on standard error.
"""

import ctypes
import sys

NO_ROOM = 1


def answered(call, *inputs, told=()):
    """The fault and the bytes that a call answers, which tells more in `told`: asked once for their number, and once for the bytes."""
    words = [word for text in inputs for word in (text, ctypes.c_size_t(len(text)))]
    needed = ctypes.c_size_t(0)
    out = ctypes.create_string_buffer(1)
    more = [ctypes.byref(number) for number in told]
    fault = call(*words, out, ctypes.c_size_t(0), ctypes.byref(needed), *more)
    if fault == NO_ROOM:
        out = ctypes.create_string_buffer(needed.value)
        fault = call(*words, out, needed, ctypes.byref(needed), *more)
    return fault, out.raw[: needed.value]


def named(library, fault):
    """The name of a fault."""
    name = ctypes.create_string_buffer(32)
    size = ctypes.c_size_t(0)
    library.olecon_fault_name(ctypes.c_uint32(fault), name, ctypes.c_size_t(32), ctypes.byref(size))
    return name.raw[: size.value].decode()


def main():
    if len(sys.argv) not in (3, 4):
        print("extract.py LIBRARY FILE [PATH]", file=sys.stderr)
        return 2
    library = ctypes.CDLL(sys.argv[1])
    with open(sys.argv[2], "rb") as file:
        content = file.read()
    if len(sys.argv) == 3:
        fault, out = answered(library.olecon_list, content)
    else:
        fault, out = answered(library.olecon_get, content, sys.argv[3].encode())
    if fault:
        print(named(library, fault), file=sys.stderr)
        return 3
    sys.stdout.buffer.write(out)
    return 0


if __name__ == "__main__":
    sys.exit(main())
