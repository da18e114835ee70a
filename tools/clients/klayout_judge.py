"""KLayout as a second judge of layouts, and as somebody whose files are read back: `klayout -b -r klayout_judge.py -rd folder=FOLDER`.

FOLDER/metal.txt has a line for each layout, its file and the metal that the router says it has. Of each layout the wires must be one piece
of metal, enter no macro's interior, be under every pin and be as long as the metal. Each GDSII file is then written anew by KLayout, as
FOLDER/back/TREE-NAME. The last line is `N layouts, M bad`; the exit status is 1 where one is bad.
"""

import os
import sys

import pya

# A unit of a net has so many of the judge's, and a wire reaches one of these to each side: so thin that it enters an interior only
# where its line does.
SCALE = 100

LEF = """VERSION 5.8 ;
UNITS
  DATABASE MICRONS 1000 ;
END UNITS
LAYER M1
  TYPE ROUTING ;
  DIRECTION HORIZONTAL ;
  WIDTH 0.002 ;
  PITCH 0.010 ;
END M1
END LIBRARY
"""


def read(path, lef):
    """The layout of a file; a DEF wants the LEF, which says how wide its layer is."""
    layout = pya.Layout()
    options = pya.LoadLayoutOptions()
    config = options.lefdef_config
    config.lef_files = [lef]
    config.read_lef_with_def = False
    config.produce_via_geometry = False
    options.lefdef_config = config
    layout.read(path, options)
    return layout


def shapes(layout, *names):
    """The shapes of the layer of one of some names, with what turns them into the top cell's."""
    for index in layout.layer_indices():
        if layout.get_info(index).to_s() in names:
            each = layout.top_cell().begin_shapes_rec(index)
            while not each.at_end():
                yield each.shape()
                each.next()


def wires(layout):
    for shape in shapes(layout, "2/0", "M1 (1/0)"):
        points = list(shape.path.each_point())
        for start, end in zip(points, points[1:]):
            yield start.x, start.y, end.x, end.y


def metal(pieces):
    """The wires as thin boxes."""
    region = pya.Region()
    for a, b, c, d in pieces:
        region.insert(pya.Box(min(a, c) * SCALE - 1, min(b, d) * SCALE - 1, max(a, c) * SCALE + 1, max(b, d) * SCALE + 1))
    return region


def interiors(layout):
    region = pya.Region()
    for shape in shapes(layout, "1/0", "M1.BLK (1/4)"):
        box = shape.bbox()
        region.insert(pya.Box(box.left * SCALE + 1, box.bottom * SCALE + 1, box.right * SCALE - 1, box.top * SCALE - 1))
    return region


def judged(layout, length):
    """What is wrong with a layout."""
    pieces = list(wires(layout))
    region = metal(pieces)
    pins = [shape.text_pos for shape in shapes(layout, "3/0", "M1.LABEL (1/1)")]
    wrong = []
    if not pins:
        wrong.append("no pins")
    if any(a != c and b != d for a, b, c, d in pieces):
        wrong.append("a slanted wire")
    if pieces and region.merged().count() != 1 or not pieces and len(pins) != 1:
        wrong.append("%d pieces" % region.merged().count())
    if not (region & interiors(layout)).is_empty():
        wrong.append("metal in an interior")
    total = sum(abs(a - c) + abs(b - d) for a, b, c, d in pieces)
    if total != length:
        wrong.append("length %d and not %d" % (total, length))
    for pin in pins:
        x, y = pin.x * SCALE, pin.y * SCALE
        if pieces and (pya.Region(pya.Box(x - 1, y - 1, x + 1, y + 1)) & region).is_empty():
            wrong.append("pin %d %d on no metal" % (pin.x, pin.y))
    return wrong


def main(folder):
    lef = os.path.join(folder, "layer.lef")
    with open(lef, "w") as out:
        out.write(LEF)
    os.makedirs(os.path.join(folder, "back"), exist_ok=True)
    count = bad = 0
    with open(os.path.join(folder, "metal.txt")) as lines:
        for line in lines:
            name, length = line.split()
            layout = read(os.path.join(folder, name), lef)
            if abs(layout.dbu - 0.001) > 1e-15:
                print("BAD", name, "dbu", layout.dbu)
                bad += 1
            wrong = judged(layout, int(length))
            if wrong:
                print("BAD", name, "; ".join(wrong))
                bad += 1
            if name.endswith(".gds"):
                layout.write(os.path.join(folder, "back", name.replace("/", "-")))
            count += 1
    print("%d layouts, %d bad" % (count, bad))
    return bad == 0 and count > 0


if not main(folder):  # noqa: F821, by -rd
    sys.exit(1)
