"""Writes a page of text, pictures and moving parts, which scrolls, zooms and closes by itself: browser.py PAGE."""
import random, sys

random.seed(11)
WORDS = "space block range offset size class bin node mask free used heap buffer vertex texture glyph row cell line".split()


def text(n):
    return " ".join(random.choice(WORDS) for _ in range(n)).capitalize() + "."


def picture(i):
    w, h = random.choice([(64, 64), (160, 120), (320, 200), (512, 300), (90, 400)])
    dots = "".join(f'<circle cx="{random.randrange(w)}" cy="{random.randrange(h)}" r="{random.randrange(3, 30)}" '
                   f'fill="hsl({random.randrange(360)} 70% 50%)"/>' for _ in range(12))
    svg = f'<svg xmlns="http://www.w3.org/2000/svg" width="{w}" height="{h}">{dots}</svg>'
    return f"<img width={w} height={h} src='data:image/svg+xml,{svg.replace('#', '%23').replace('%', '%25').replace(chr(39), '%27')}'>"


parts = []
for i in range(120):
    parts.append(f"<h2 style='font-size:{random.randrange(14, 60)}px'>{text(4)}</h2>")
    parts.append(f"<p style='font:{random.randrange(9, 24)}px {random.choice(['serif', 'sans-serif', 'monospace'])}'>{text(120)}</p>")
    parts.append(picture(i))
    if i % 4 == 0:
        parts.append(f"<div class=m style='animation-duration:{random.randrange(1, 5)}s'>{text(6)}</div>")
    if i % 10 == 3:
        parts.append(f"<canvas width={random.randrange(100, 600)} height={random.randrange(60, 300)}></canvas>")
    if i % 15 == 7:
        parts.append(f"<div class=b>{text(500)}</div>")
open(sys.argv[1], "w").write(f"""<!DOCTYPE html><meta charset=utf-8><title>page</title><style>
@keyframes turn {{ to {{ transform: rotate(1turn) scale(1.4); opacity: .4 }} }}
.m {{ animation: turn 2s infinite; will-change: transform; width: 300px; background: #ddf; filter: drop-shadow(4px 4px 6px #555) }}
.b {{ height: 200px; width: 400px; overflow: scroll; border-radius: 20px; box-shadow: 0 0 20px #933 }}
</style>{"".join(parts)}<script>
let t = 0;
const cs = [...document.querySelectorAll("canvas")], bs = [...document.querySelectorAll(".b")];
function step() {{
  if (++t > 900) close();
  const far = document.documentElement.scrollHeight;
  scrollTo(0, (t * 37) % far);
  for (const c of cs) {{ const g = c.getContext("2d"); g.fillStyle = `hsl(${{t * 3 % 360}} 60% 50%)`; g.fillRect(t % 200, t % 60, 40, 40); }}
  for (const b of bs) b.scrollTop = t * 5 % 2000;
  if (t % 40 === 0) document.body.style.zoom = [1, 1.25, 0.8, 1.6][t / 40 % 4];
  if (t % 25 === 0) {{ const i = document.images[t / 25 % document.images.length]; i.width = 100 + t % 300; }}
  setTimeout(step, 40);
}}
onload = () => setTimeout(step, 500);
</script>""")
