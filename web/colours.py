#!/usr/bin/env python3
"""Measures the colours of ages, in the pictures and in the page: web/colours.py [page | pictures]. It fails where two neighbours of a scale
are told apart worse than FLOOR, and where an age has less than CONTRAST to its background or to free units, and where the page and the pictures have other colours.

The formulas: sRGB to CIE L*a*b* (D65, IEC 61966-2-1); protanopia, deuteranopia and tritanopia by the matrices of Machado,
Oliveira and Fernandes (2009) at severity 1.0, on linear RGB; grey print by L* alone; the difference by CIEDE2000 (Sharma,
Wu and Dalal 2005, kL = kC = kH = 1); contrast by WCAG 2."""

import math
import pathlib
import re
import sys

FLOOR = 10
CONTRAST = 3
AGES = 8
SEEN = {
    "normal": ((1, 0, 0), (0, 1, 0), (0, 0, 1)),
    "protanopia": ((0.152286, 1.052583, -0.204868), (0.114503, 0.786281, 0.099216), (-0.003882, -0.048116, 1.051998)),
    "deuteranopia": ((0.367322, 0.860646, -0.227968), (0.280085, 0.672501, 0.047413), (-0.011820, 0.042940, 0.968881)),
    "tritanopia": ((1.255528, -0.076749, -0.178779), (-0.078411, 0.930809, 0.147602), (0.004733, 0.691367, 0.303900)),
}


def linear(c):
    c /= 255
    return c / 12.92 if c <= 0.04045 else ((c + 0.055) / 1.055) ** 2.4


def rgb(text):
    text = text.lstrip("#")
    text = text if len(text) == 6 else "".join(2 * c for c in text)
    return tuple(linear(int(text[i:i + 2], 16)) for i in (0, 2, 4))


def seen(color, kind):
    return tuple(min(1, max(0, sum(m * c for m, c in zip(row, color)))) for row in SEEN[kind])


def lab(color):
    r, g, b = color
    xyz = (0.4124564 * r + 0.3575761 * g + 0.1804375 * b, 0.2126729 * r + 0.7151522 * g + 0.0721750 * b,
           0.0193339 * r + 0.1191920 * g + 0.9503041 * b)
    x, y, z = (f ** (1 / 3) if f > 216 / 24389 else (24389 / 27 * f + 16) / 116
               for f in (v / w for v, w in zip(xyz, (0.95047, 1, 1.08883))))
    return 116 * y - 16, 500 * (x - y), 200 * (y - z)


def difference(one, other):
    """CIEDE2000."""
    (l1, a1, b1), (l2, a2, b2) = one, other
    mean7 = ((math.hypot(a1, b1) + math.hypot(a2, b2)) / 2) ** 7
    g = 0.5 * (1 - math.sqrt(mean7 / (mean7 + 25 ** 7)))
    a1, a2 = (1 + g) * a1, (1 + g) * a2
    c1, c2 = math.hypot(a1, b1), math.hypot(a2, b2)
    h1, h2 = (math.degrees(math.atan2(b, a)) % 360 if a or b else 0 for a, b in ((a1, b1), (a2, b2)))
    dh = 0 if not c1 * c2 else (h2 - h1 + 180) % 360 - 180
    big = 2 * math.sqrt(c1 * c2) * math.sin(math.radians(dh / 2))
    l, c = (l1 + l2) / 2, (c1 + c2) / 2
    if not c1 * c2:
        h = h1 + h2
    elif abs(h1 - h2) <= 180:
        h = (h1 + h2) / 2
    else:
        h = (h1 + h2 + 360) / 2 if h1 + h2 < 360 else (h1 + h2 - 360) / 2
    t = (1 - 0.17 * math.cos(math.radians(h - 30)) + 0.24 * math.cos(math.radians(2 * h))
         + 0.32 * math.cos(math.radians(3 * h + 6)) - 0.20 * math.cos(math.radians(4 * h - 63)))
    sl = 1 + 0.015 * (l - 50) ** 2 / math.sqrt(20 + (l - 50) ** 2)
    sc, sh = 1 + 0.045 * c, 1 + 0.015 * c * t
    rt = -2 * math.sqrt(c ** 7 / (c ** 7 + 25 ** 7)) * math.sin(math.radians(60 * math.exp(-((h - 275) / 25) ** 2)))
    dl, dc, dh = (l2 - l1) / sl, (c2 - c1) / sc, big / sh
    return math.sqrt(dl * dl + dc * dc + dh * dh + rt * dc * dh)


def contrast(one, other):
    """The contrast of two colours by WCAG 2: 1 to 21."""
    light = [0.2126 * r + 0.7152 * g + 0.0722 * b for r, g, b in (rgb(one), rgb(other))]
    return (max(light) + 0.05) / (min(light) + 0.05)


# pairs of the paper by Sharma, Wu and Dalal, with their differences
KNOWN = (((50, 2.6772, -79.7751), (50, 0, -82.7485), 2.0425), ((50, 2.5, 0), (73, 25, -18), 27.1492), ((50, 2.5, 0), (61, -5, 29), 22.8977),
         ((22.7233, 20.0904, -46.6940), (23.0331, 14.9730, -42.5619), 2.0373), ((2.0776, 0.0795, -1.1350), (0.9033, -0.0636, -0.5514), 0.9082))


def scales(text, pattern):
    """The scales of a text: those before and after the words that begin the dark scheme."""
    parts = text.split("prefers-color-scheme", 1)
    found = []
    for part in parts:
        named = dict(re.findall(pattern, part))
        found.append([named.get(str(i)) for i in range(1, AGES + 1)])
    light, dark = found[0], found[1] if len(found) > 1 and None not in found[1] else found[0]
    return {"light": light, "dark": dark}


def measure(name, colors):
    """Prints a scale, and returns what is wrong with it."""
    wrong = []
    light = [lab(rgb(c))[0] for c in colors]
    print(f"{name}: {' '.join(colors)}")
    print("  L*             " + " ".join(f"{v:5.1f}" for v in light))
    if any(a <= b for a, b in zip(light, light[1:])):
        wrong.append(f"{name}: the lightness does not fall steadily")
    for kind in SEEN:
        labs = [lab(seen(rgb(c), kind)) for c in colors]
        steps = [difference(a, b) for a, b in zip(labs, labs[1:])]
        print(f"  {kind:12}     " + " ".join(f"{v:5.1f}" for v in steps))
        if min(steps) < FLOOR:
            wrong.append(f"{name}, {kind}: two neighbours differ by {min(steps):.1f}")
    grey = [difference((a, 0, 0), (b, 0, 0)) for a, b in zip(light, light[1:])]
    print("  grey             " + " ".join(f"{v:5.1f}" for v in grey))
    return wrong


def main():
    here = pathlib.Path(__file__).resolve().parent
    scales_seen = {}
    wrong = [f"the formula gives {difference(a, b):.4f}, not {d}" for a, b, d in KNOWN if abs(difference(a, b) - d) > 0.0001]
    for name, path, pattern in (("page", here / "source.html", r"--age(\d): (#\w+)"),
                                ("pictures", here / "../crates/offset_pictures/src/style.rt", r"\.age(\d)\{fill:(#\w+)\}")):
        if sys.argv[1:] not in ([], [name]):
            continue
        found = scales(path.read_text(), pattern)
        for scheme, part in zip(("light", "dark"), path.read_text().split("prefers-color-scheme", 1)):
            wrong += measure(f"{name}, {scheme}", found[scheme])
            for beside, of in (("free", r"--free: (#\w+)"), ("bg", r"--bg: (#\w+)")) if name == "page" else (("back", r"\.back\{fill:(#\w+)\}"),):
                least = min(contrast(age, re.search(of, part)[1]) for age in found[scheme])
                print(f"  least contrast to {beside}: {least:.2f}")
                if least < CONTRAST:
                    wrong.append(f"{name}, {scheme}: an age has a contrast of {least:.2f} to {beside}")
        if scales_seen.setdefault("both", found) != found:
            wrong.append("the page and the pictures have other colours")
    for fault in wrong:
        print(fault)
    return 1 if wrong else 0


if __name__ == "__main__":
    sys.exit(main())
