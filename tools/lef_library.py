#!/usr/bin/env python3
"""Writes a LEF library with as many cells as the argument says, each with pins, ports and obstructions, to try how
long reading it takes.

    tools/lef_library.py 10000 > library.lef
"""
import sys

HEAD = """VERSION 5.8 ;
UNITS
  DATABASE MICRONS 1000 ;
END UNITS
LAYER met1
  TYPE ROUTING ;
  DIRECTION HORIZONTAL ;
  PITCH 0.34 ;
  WIDTH 0.14 ;
END met1
LAYER met2
  TYPE ROUTING ;
  DIRECTION VERTICAL ;
  PITCH 0.46 ;
  WIDTH 0.14 ;
END met2
SITE core
  CLASS CORE ;
  SIZE 0.46 BY 2.72 ;
END core
"""


def rectangles(count, indent):
    for k in range(count):
        layer = "met%d" % (k % 2 + 1)
        yield "%sLAYER %s ;\n" % (indent, layer)
        yield "%s  RECT %.3f 0.255 %.3f 2.465 ;\n" % (indent, 0.085 + k * 0.46, 0.255 + k * 0.46)


def pin(name, direction, use):
    yield "  PIN %s\n    DIRECTION %s ;\n    USE %s ;\n    PORT\n" % (name, direction, use)
    yield from rectangles(6, "      ")
    yield "    END\n  END %s\n" % name


def cell(number):
    name = "CELL_X%d" % number
    yield "MACRO %s\n  CLASS CORE ;\n  ORIGIN 0 0 ;\n  SIZE 3.68 BY 2.72 ;\n" % name
    yield "  SYMMETRY X Y R90 ;\n  SITE core ;\n"
    for inputs in "ABCD":
        yield from pin(inputs, "INPUT", "SIGNAL")
    yield from pin("Y", "OUTPUT", "SIGNAL")
    yield from pin("VDD", "INOUT", "POWER")
    yield from pin("VSS", "INOUT", "GROUND")
    yield "  OBS\n"
    yield from rectangles(8, "    ")
    yield "  END\nEND %s\n" % name


sys.stdout.write(HEAD)
for number in range(1, int(sys.argv[1]) + 1):
    sys.stdout.write("".join(cell(number)))
sys.stdout.write("END LIBRARY\n")
