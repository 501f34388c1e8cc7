"""Fails where VMA's own viewer of dumps does not draw each live range of ours: view.py VIEWER DUMP

VIEWER: GpuMemDumpVis.py, in VMA's source; it is run as it stands, on a stand-in for Pillow that keeps the rectangles. DUMP: a
file that dump.c has printed.
"""
import json
import runpy
import sys
from types import ModuleType, SimpleNamespace

WIDTH, MARGIN, HEIGHT = 1200, 8, 24  # of the viewer's picture


class Draw:
    """What the viewer draws by; only rectangles are kept."""
    boxes = []

    def __init__(self, image):
        pass

    def rectangle(self, box, fill, outline):
        self.boxes.append(box)

    def line(self, *_, **__):
        pass

    text = line

    def textlength(self, text, font):
        return 6 * len(text)


def no_font(*_):
    raise OSError


def main():
    viewer, dump = sys.argv[1:]
    pillow = ModuleType("PIL")
    pillow.Image = SimpleNamespace(new=lambda *_: SimpleNamespace(save=lambda path: None))
    pillow.ImageDraw = SimpleNamespace(Draw=Draw)
    pillow.ImageFont = SimpleNamespace(truetype=no_font, load_default=lambda: None)
    sys.modules["PIL"] = pillow
    sys.argv = [viewer, "-o", "none.png", dump]
    runpy.run_path(viewer, run_name="__main__")

    with open(dump) as file:
        (pool,) = json.load(file)["DefaultPools"].values()
    (block,) = pool["Blocks"].values()
    pixels = (WIDTH - 2 * MARGIN) / float(block["TotalBytes"])
    wanted, live = [(MARGIN, MARGIN + int(block["TotalBytes"] * pixels))], 0
    for it in block["Suballocations"]:
        first, end = int(it["Offset"] * pixels), int((it["Offset"] + it["Size"]) * pixels)
        live += it["Type"] != "FREE"
        # a narrower one is a line
        if it["Type"] != "FREE" and end > first + 1:
            wanted.append((MARGIN + first, MARGIN + end))
    found = [(box[0], box[2]) for box in Draw.boxes if box[3] - box[1] == HEIGHT]
    if found != wanted or not live:
        sys.exit(f"{viewer} draws {found} of {dump}, not {wanted}")
    print(f"VMA's viewer draws {len(found) - 1} of {live} live ranges, and lines for the others")


main()
