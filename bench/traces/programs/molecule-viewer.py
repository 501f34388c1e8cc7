"""Builds peptides in the window of PyMOL, shows each in several ways, and quits."""
import random
from pymol import cmd

random.seed(5)
LETTERS = "ACDEFGHIKLMNPQRSTVWY"
WAYS = ["cartoon", "sticks", "spheres", "surface", "lines", "mesh", "ribbon", "dots"]
cmd.viewport(640, 480)
cmd.set("use_shaders", 1)
names = []
for step in range(360):
    if len(names) > 6 or (len(names) > 2 and random.random() < 0.2):
        cmd.delete(names.pop(random.randrange(len(names))))
    elif not names or random.random() < 0.3:
        name = f"p{step}"
        cmd.fab("".join(random.choice(LETTERS) for _ in range(random.randint(5, 40))), name, ss=random.choice([1, 2, 3]))
        cmd.translate([random.uniform(-30, 30) for _ in "xyz"], name)
        names.append(name)
    one = random.choice(names)
    cmd.hide("everything", one)
    for way in random.sample(WAYS, 2):
        cmd.show(way, one)
    cmd.spectrum("count", random.choice(["rainbow", "blue_white_red", "green_yellow"]), one)
    if random.random() < 0.3:
        cmd.label(f"{one} and name CA", "resn")
    cmd.set("cartoon_sampling", random.randint(3, 14))
    cmd.orient()
    cmd.turn("y", random.uniform(0, 360))
    cmd.draw(640, 480)
    cmd.refresh()
cmd.quit()
