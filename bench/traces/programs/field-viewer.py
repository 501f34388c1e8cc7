"""Changes filters over a field in ParaView's window, a picture after each step."""
from paraview.simple import *
import random

random.seed(3)
view = CreateRenderView(ViewSize=[240, 180])
wave = Wavelet(WholeExtent=[-16, 16, -16, 16, -16, 16])
Show(Outline(Input=wave), view)
shown = []


def show(made):
    rep = Show(made, view)
    ColorBy(rep, ("POINTS", "RTData"))
    shown.append(made)


def contour():
    c = Contour(Input=wave, ContourBy=["POINTS", "RTData"])
    c.Isosurfaces = sorted(random.uniform(60, 250) for _ in range(random.randint(1, 4)))
    return c


def cut():
    s = Slice(Input=wave)
    s.SliceType.Normal = [random.uniform(-1, 1) for _ in range(3)]
    s.SliceType.Origin = [random.uniform(-10, 10) for _ in range(3)]
    return s


def clip():
    c = Clip(Input=wave)
    c.ClipType.Normal = [random.uniform(-1, 1) for _ in range(3)]
    return c


def threshold():
    t = Threshold(Input=wave, Scalars=["POINTS", "RTData"])
    t.LowerThreshold, t.UpperThreshold = sorted(random.uniform(40, 270) for _ in range(2))
    return t


def glyph():
    g = Glyph(Input=random.choice(shown), GlyphType=random.choice(["Sphere", "Arrow", "Cone", "Box"]))
    g.MaximumNumberOfSamplePoints = random.choice([50, 200, 500])
    return g


MAKE = [contour, contour, cut, cut, clip, threshold, glyph]
for step in range(620):
    if len(shown) > 5 or (len(shown) > 2 and random.random() < 0.3):
        gone = shown.pop(random.randrange(len(shown)))
        Hide(gone, view)
        if not any(getattr(s, "Input", None) == gone for s in shown):
            Delete(gone)
    elif shown and random.random() < 0.4:
        one = random.choice(shown)
        if one.GetXMLName() == "Contour":
            one.Isosurfaces = [x + 4 for x in one.Isosurfaces]
        elif hasattr(one, "SliceType"):
            one.SliceType.Origin = [x * 0.8 for x in one.SliceType.Origin]
        rep = GetRepresentation(one, view)
        rep.Representation = random.choice(["Surface", "Surface With Edges", "Wireframe", "Points"])
    else:
        show((contour if not shown else random.choice(MAKE))())
    if step == 0:
        ResetCamera(view)
    view.CameraPosition = [100 * random.uniform(-1, 1), 100 * random.uniform(-1, 1), 80]
    Render(view)
