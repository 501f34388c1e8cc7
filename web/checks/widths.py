"""What is drawn, at three widths and in both schemes of colours, compared with what is to be there by the answers of the
program: colours of points within blocks and lives."""

import bisect
import random

from . import heaps
from .base import TRACES, holds, program, same, to
from .lists import live_at

WIDTHS = (320, 800, 1920)
AGES = (10, 30, 100, 300, 1000, 3000, 10000)
age = lambda calls: sum(calls > most for most in AGES)
COLOURS = """const c = getComputedStyle(document.documentElement), of = n => c.getPropertyValue(n).trim(), hex = s => [1, 3, 5].map(i => parseInt(s.slice(i, i + 2), 16));
  return [[1, 2, 3, 4, 5, 6, 7, 8].map(i => hex(of('--age' + i))), hex(of('--free'))]"""
PIXELS = """const c = $(arguments[0]), g = c.getContext('2d'), d = devicePixelRatio, a = g.getImageData(0, 0, c.width, c.height).data;
  return arguments[1].map(([x, y]) => { const i = 4 * (Math.floor(y * d) * c.width + Math.floor(x * d)); return [a[i], a[i + 1], a[i + 2], a[i + 3]]; })"""


def lives_of(text):
    """The lives of all ranges of a script without resets: offset, units, first and last row."""
    lines = [line for line in text.splitlines() if line and line[0] != "#"][1:]
    answers, open_, lives = program(text)[0].splitlines(), {}, []
    for i, line in enumerate(lines):
        answer = answers[i].split()
        if answer[0] == "grant":
            open_[answer[1]] = (int(answer[3]), int(line.split()[1]), i + 1)
        elif answer[0] == "freed":
            lives.append((*open_.pop(line.split()[1]), i + 1))
    return [*lives, *((*life, len(lines) + 1) for life in open_.values())], len(lines)


def space_points(b, blocks, start, end, p, colours, free):
    """Points within the drawn blocks, and their colours."""
    width, height = b.run("return [$('space').clientWidth, $('space').clientHeight]")
    r, points, expected = random.Random(width), [], []
    span, w = (end - start) / 6, width - 54
    starts = [block[0] for block in blocks]
    while len(points) < 150:
        unit = start + r.random() * (end - start)
        at = bisect.bisect_right(starts, unit) - 1
        o, n, since = blocks[at]
        y, x = divmod(unit - start, span)
        near = 2.5 * span / w
        if o + near < unit < o + n - near and near < x < span - near:
            points.append([54 + x / span * w, (y + 0.5) * height / 6])
            expected.append(free if since is None else colours[age(p - since)])
    return points, expected


def blocks_at(text, p):
    """The blocks after so many calls, used and free: offset, units, and the row of the grant or none."""
    size, at, blocks = int(text.split("space ")[1].split()[0]), 0, []
    for _, o, n, since in sorted(live_at(text, p), key=lambda r: r[1]):
        if o > at:
            blocks.append((at, o - at, None))
        blocks.append((o, n, since))
        at = o + n
    return [*blocks, (at, size - at, None)]


def few_ranges():
    """A script of some ranges that live for very different numbers of calls."""
    r, lines, live, grants = random.Random(3), ["space 100000 nodes 200 index 32"], [], 0
    for _ in range(60):
        lines.append(f"alloc {r.randrange(1500, 6000)}")
        grants += 1
        live.append(grants)
        lines += ["report"] * r.choice((3, 20, 60, 200, 700))
        while len(live) > r.randrange(4, 14):
            lines.append(f"free {live.pop(r.choice((0, -1)))}")
    return "\n".join(lines) + "\n"


def drawings_are_right(b):
    few = few_ranges()
    lives, count = lives_of(few)
    kinds = lambda p: {age(p - begin) for _, _, begin, end in lives if begin <= p < end}
    at = max(range(0, count, 40), key=lambda p: len(kinds(p)))
    assert len(kinds(at)) > 4, kinds(at)
    top = max(o + n for o, n, *_ in lives)
    for width in WIDTHS:
        for scheme, scale in (("light", 1), ("dark", 2)):
            b.size(width, 900, scale, scheme)
            b.open()
            b.run("return take(new TextEncoder().encode(arguments[0]))", few)
            to(b, at)
            colours, free = b.run(COLOURS)
            blocks = blocks_at(few, at)
            for zoomed in ("zall", "zused"):
                b.run("$(arguments[0]).click(); pointer = null; draw()", zoomed)
                end = blocks[-1][0] if zoomed == "zused" else sum(blocks[-1][:2])
                points, expected = space_points(b, blocks, 0, end, at, colours, free)
                found = b.run(PIXELS, "space", points)
                wrong = sum(f[:3] != e for f, e in zip(found, expected))
                # the range of the last call is outlined
                holds(wrong <= 3, f"the space, {width} pixels, {scheme}, {zoomed}: 150 points", (wrong, found[:5], expected[:5]))
            to(b, count)
            b.run("return new Promise(r => { const f = () => !S.run.picture?.isDone ? setTimeout(f, 20) : r(0); f(); })")
            b.run("draw()")
            w, h = b.run("return [$('life').clientWidth - 54, $('life').clientHeight - 16]")
            points, expected = [], []
            for o, n, begin, end in lives:
                x1, x2, y1, y2 = begin / (count + 1) * w, end / (count + 1) * w, h - (o + n) / top * h, h - o / top * h
                if x2 - x1 > 2.5 and y2 - y1 > 2.5 and x2 < w - 6:
                    points.append([54 + (x1 + x2) / 2, (y1 + y2) / 2])
                    expected.append([*colours[age(end - begin)], 255])
            found = b.run(PIXELS, "life", points)
            wrong = [(f, e) for f, e in zip(found, expected) if f != e]
            holds(len(points) > 20 and len(wrong) <= len(points) // 10, f"lives, {width} pixels, {scheme}: {len(points)} points", wrong)


def nothing_is_cut(b):
    for width in (*WIDTHS, 390):
        b.size(width, 900)
        b.open("#t=arena-game&p=4000")
        b.run("act('alloc'); return compare([100000000, 5000, 2, 1])")
        b.run("$('help').showModal()")
        same(b.run("return document.documentElement.scrollWidth - document.documentElement.clientWidth"), 0, f"no overflow at {width} pixels")
        cut = b.run("return [...document.querySelectorAll('button, label, p, h1, h2, dt, dd, #why li')].filter(e => e.getClientRects().length && "
                    "(e.scrollWidth > e.clientWidth + 1 && getComputedStyle(e).display !== 'inline' || e.getBoundingClientRect().right > innerWidth + 1)).map(e => e.tagName + e.id + e.textContent.slice(0, 30))")
        same(cut, [], f"no text is cut at {width} pixels")


def readme_s_picture(b):
    data = (TRACES["voxel-game"].parent / "../../docs/voxel-game.png").read_bytes()
    same([int.from_bytes(data[i:i + 4], "big") for i in (16, 20)], [780, 660], "the first picture has two pixels for each of 390 points")
    holds(len(data) < 150_000, "and less than 150 KB", len(data))
    b.open("#t=voxel-game")
    sizes = b.run("return pictured(S.run, 390, 330, new Work('x')).then(drawn => [...new DOMParser().parseFromString(drawn, 'image/svg+xml').querySelectorAll('text')].map(t => Number(t.getAttribute('font-size') || 11)))")
    holds(min(sizes) >= 10, "its words have 10 points or more", sizes)
    long = "S.title = 'a title that is as long as the name of a file that nobody has shortened yet'; "
    right = b.run(long + "return pictured(S.run, 390, 330, new Work('x')).then(drawn => { document.body.innerHTML = drawn; return Math.max(...[...document.querySelectorAll('text')].map(t => t.getBBox().x + t.getBBox().width)) })")
    holds(right <= 390, "and none is cut", right)


# What is looked at by eye: how each view comes about.
NAMED = "space 65536 nodes 64 index 32\n#! unit 256\n" + "".join(f"# {kind}: number {i}\nalloc {units}\n#! frame\n" for i, (kind, units) in enumerate(
    [("texture", 9000), ("mesh", 700), ("texture", 12000), ("sound", 3000), ("mesh", 500), ("texture", 16000), ("mesh", 900), ("sound", 4100)], 1)) + \
    "free 1\nfree 3\n# mesh: again\nalloc 640\n#! mark level two\nfree 5\nfree 8\n# texture: that nothing has room for\nalloc 30000\nalloc 2000\n#! frame\n"
VIEWS = {
    "first": "",
    "refused": "await take(new TextEncoder().encode(text), 'named.script'); refusal(1);",
    "lives": "S.life = null; zoomLives(3000, 9000, 0, S.run.top);",
    "heaps": "await take(new TextEncoder().encode(many), 'many.script'); $('nogrant').open = true; await openPart(2);",
    "compare": "await take(new TextEncoder().encode(text), 'named.script'); refusal(1); await compare([65536, 16, 256, 1]);",
    "leaks": "await take(new TextEncoder().encode(text), 'named.script'); await lookFor({ byName: true }); $('mfrom').value = 2; $('mto').value = 10; await betweenMarks();",
    "try": "await take(new TextEncoder().encode(text), 'named.script'); refusal(1); $('helps').querySelector('button').click(); await new Promise(r => setTimeout(r, 300));",
}


def what_helps_reads_as_a_list(b):
    """Each help's bullet is beside its first line; what a row of a list has no room for ends in dots, the reason before the name."""
    for width in (360, 768, 1280, 3840):
        b.size(width, 900)
        b.open()
        b.run("return take(new TextEncoder().encode(arguments[0]), 'named.script')", NAMED)
        b.run("refusal(1)")
        off = b.run("""return [...document.querySelectorAll('#helps button')].map(e => { const probe = document.createElement('span'); probe.textContent = '\\u2060'; e.before(probe);
          const off = Math.abs(probe.getBoundingClientRect().top - e.getBoundingClientRect().top); probe.remove(); return off; })""")
        holds(len(off) > 3 and max(off) < 8, f"bullets are beside the first lines, at {width} pixels", off)
        cut = b.run("""return [...document.querySelectorAll('#calls .row, #ranges .row')].flatMap(r => [...r.children].filter(e => (e.scrollWidth > e.clientWidth + 1 && getComputedStyle(e).textOverflow !== 'ellipsis') ||
          e.getBoundingClientRect().right > r.getBoundingClientRect().right + 1).map(e => e.textContent))""")
        same(cut, [], f"what a row has no room for ends in dots, at {width} pixels")
        name, reason = b.run("return [...document.querySelectorAll('#calls .now .dim, #calls .now .bad:last-child')].map(e => e.clientWidth / e.scrollWidth)")
        holds(name >= reason, "the reason gives way before the name", (name, reason))


def fields_and_columns_are_in_line(b):
    """From and to are on one line, heads are over their columns, and no number of a comparison is broken."""
    b.size(360, 900)
    b.open()
    b.run("return take(new TextEncoder().encode(arguments[0]), 'named.script')", NAMED)
    tops = b.run("return [['fmin', 'fmax'], ['ffrom', 'ffromhere'], ['fto', 'ftohere'], ['mfrom', 'mfromis'], ['mto', 'mtois'], ['fnever', 'fclear'], ['n', 'a'], ['o', 'k']].map(ids => { const [x, y] = ids.map(id => $(id).getBoundingClientRect()); return Math.abs(x.top + x.bottom - y.top - y.bottom) / 2; })")
    holds(max(tops) < 8, "fields that belong together are on one line at 360 pixels", tops)
    b.open("#t=voxel-game&p=9000")
    for id_ in ("xsize", "fmin", "n", "row"):
        cut = b.run("const e = $(arguments[0]); e.value = 4294967295; return e.scrollWidth > e.clientWidth", id_)
        same(cut, False, f"a number of ten digits is whole in {id_} at 360 pixels")
    b.run("$('row').value = 9000")
    same(b.run("return $('sizes').scrollHeight > $('sizes').clientHeight"), False, "the sizes of ranges of a game need no scroll bar")
    for width in (360, 768, 1280, 3840):
        b.size(width, 900)
        b.open()
        b.run("return take(new TextEncoder().encode(arguments[0]), 'named.script')", NAMED)
        b.run("refusal(1); return compare([65536, 16, 256, 1])")
        broken = b.run("return [...document.querySelectorAll('#differences tr:not(.said) td')].filter(e => { const r = document.createRange(); r.selectNodeContents(e); return new Set([...r.getClientRects()].map(l => Math.round(l.top))).size > 1 && e.textContent !== answered(S.run, S.p - 1) && e.textContent !== answered(S.other.run, S.other.at[S.p] - 1); }).map(e => e.textContent)")
        over = b.run("return [...document.querySelectorAll('.scroll')].filter(e => e.scrollWidth > e.clientWidth + 1).length")
        same([broken, over], [[], 0], f"the table of a comparison at {width} pixels")
        b.run("$('byname').value = '1'; return $('byname').onchange()")
        left = b.run("const c = [document.querySelector('#groups thead th'), document.querySelector('#grouprows th')]; return c.map(e => { const r = document.createRange(); r.selectNodeContents(e); return r.getBoundingClientRect().left; })")
        holds(abs(left[0] - left[1]) < 3, f"the head of names is over them at {width} pixels", left)
    same(b.run("return $('calls').offsetHeight"), 232, "a list in a low window")
    b.size(3840, 2000)
    holds(b.run("return $('calls').clientHeight > 400 && $('life').clientHeight > 300"), "a large window has longer lists and larger pictures")


def shots(b, folder):
    folder.mkdir(parents=True, exist_ok=True)
    many = heaps.many(3)[0].replace("heap 0 space", "# device-local memory, of which the buffers of all levels are\nheap 0 space", 1)
    for scheme in ("light", "dark"):
        for width in (360, 768, 1280, 3840):
            for name, script in VIEWS.items():
                b.size(width, 900, 1, scheme)
                b.open("#t=voxel-game&p=9000" if name == "lives" else "")
                b.run("const [text, many] = arguments; return (async () => { " + script + " })()", NAMED, many)
                # a high window has longer lists; and what is drawn in turns is drawn again in another size
                for _ in range(2):
                    b.size(width, b.run("return document.documentElement.scrollHeight"), 1, scheme)
                b.run("return new Promise(r => { const f = () => !S.run.picture?.isDone ? setTimeout(f, 50) : r(draw()); setTimeout(f, 200); })")
                (folder / f"{name}-{scheme}-{width}.png").write_bytes(b.picture())


ALL = [drawings_are_right, nothing_is_cut, readme_s_picture, what_helps_reads_as_a_list, fields_and_columns_are_in_line]
