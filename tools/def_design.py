#!/usr/bin/env python3
"""Writes a DEF text of a placed and routed design on standard output: so many components in rows, and as many nets with
routed wires of four layers. The same numbers give the same text.

  tools/def_design.py COMPONENTS
"""
import random
import sys

SITE, HEIGHT, ROW = 460, 2720, 400


def name_of(number):
    return f"block_{number % 37}/unit_{number // 37}/cell_{number}"


def components(out, count):
    out.write(f"COMPONENTS {count} ;\n")
    for number in range(count):
        x, y = number % ROW * 10 * SITE, number // ROW * HEIGHT
        out.write(f"- {name_of(number)} CELL_X{number % 97} + PLACED ( {x} {y} ) {'FS' if number // ROW % 2 else 'N'} ;\n")
    out.write("END COMPONENTS\n")


def wire(random, x, y):
    """A path of points and vias that begins at a point."""
    words = [f"met{1 + random.randrange(4)} ( {x} {y} )"]
    for step in range(6):
        if step % 2:
            y += random.randrange(1, 60) * 340
            words.append(f"( * {y} )")
        else:
            x += random.randrange(1, 60) * SITE
            words.append(f"( {x} * )")
        words.append(f"via{1 + step % 4}_{random.randrange(10)}")
    return " ".join(words)


def nets(out, count):
    source = random.Random(7)
    out.write(f"NETS {count} ;\n")
    for number in range(count):
        pins = [(number, "Y")] + [(source.randrange(count), "ABCD"[it]) for it in range(3)]
        joined = " ".join(f"( {name_of(it)} {pin} )" for it, pin in pins)
        x, y = number % ROW * 10 * SITE, number // ROW * HEIGHT
        paths = "\n  NEW ".join(wire(source, x, y) for _ in range(3))
        out.write(f"- net_{number} {joined} + USE SIGNAL\n  + ROUTED {paths} ;\n")
    out.write("END NETS\n")


def main(words):
    count = int(words[0])
    out = sys.stdout
    out.write("VERSION 5.8 ;\nDIVIDERCHAR \"/\" ;\nBUSBITCHARS \"[]\" ;\nDESIGN placed_and_routed ;\nUNITS DISTANCE MICRONS 1000 ;\n")
    height = (count // ROW + 1) * HEIGHT
    out.write(f"DIEAREA ( 0 0 ) ( {ROW * 10 * SITE} {height} ) ;\n")
    for row in range(count // ROW + 1):
        out.write(f"ROW row_{row} core 0 {row * HEIGHT} {'FS' if row % 2 else 'N'} DO {ROW * 10} BY 1 STEP {SITE} 0 ;\n")
    components(out, count)
    nets(out, count)
    out.write("END DESIGN\n")


if __name__ == "__main__":
    main(sys.argv[1:])
