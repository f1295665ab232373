#!/usr/bin/env python3
"""Writes the saved bytes of a database with as many nets as the argument says, to try how long a load takes.

    tools/saved_nets.py 100000 > nets.odb
"""
import struct
import sys


def number(n):
    return struct.pack("<I", n)


def text(data):
    return number(len(data)) + data


def net(k):
    name = text(b"n%d" % k)
    # use, special; lists of terminals, wires and properties; two texts of kept words
    return b"\x01" + name + b"\x00\x00" + number(0) * 5


def saved(count):
    out = [b"ODBS", number(1), number(0) * 4, number(0)]
    out += [text(b""), text(b"/"), text(b"[]"), b"\x00", number(0) * 2]
    out += [number(0) * 2, number(0) * 2]
    out += [number(count)] + [net(k) for k in range(1, count + 1)] + [number(0)]
    out += [number(0) * 2] * 9
    return b"".join(out)


if __name__ == "__main__":
    sys.stdout.buffer.write(saved(int(sys.argv[1])))
