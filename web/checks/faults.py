"""Faults that the page once had: each of these checks failed before it was mended. They use the page as its user does."""

import re
import subprocess
import sys

from .base import WEB, TRACES, give, holds, play, program, row, same, to, until
import page
from .speed import LOOP, no_long_task, within


def made_of_sources(b):
    same(page.sum_within((WEB / "page.html").read_text(encoding="utf-8")), page.sum_of_sources(), "the page is made of its sources")


def words_in_comments_ask_for_no_page(b):
    """The page is made of sources without comments: each keeps its other words, and a word of these asks for another page."""
    word = re.compile(r"""//[^\n]*|b?"(?:\\.|[^"\\])*"|'(?:\\.|[^\\'\n])'|\w+|\S""", re.S)
    words = lambda text: [w for w in word.findall(text) if not w.startswith("//")]
    made = (WEB / "page.html").read_text(encoding="utf-8")
    for path in page.sources():
        text = path.read_text(encoding="utf-8")
        bare = page.bare(path.name, text)
        assert page.bare(path.name, bare) == bare, path
        if path.suffix == ".rs":
            assert words(bare) == words(text), path
            line = next(line for line in text.splitlines() if line and not line.startswith("//"))
            assert page.bare(path.name, text.replace(line, "/// A word.\n// Another.\n" + line, 1)) == bare, path
            assert page.bare(path.name, text.replace(line, line + " fn another() {}", 1)) != bare, path
        if path.suffix == ".js":
            assert page.bare(path.name, "// A word.\n" + text) == bare and (path.stem == "module" or bare.strip() in made), path
            assert page.bare(path.name, text + "another();\n") != bare, path
    same([line for line in made.splitlines() if line.lstrip().startswith("//")], [], "a word in a comment asks for no other page, each other word does")


def text_is_fast(b):
    b.open("#t=voxel-game&p=9000")
    b.run("const s = document.getElementById('show'); if (s) return s.onclick()")
    text = TRACES["voxel-game"].read_text()
    same(b.run("return $('text').value"), text, "the text of the run")
    b.focus("#text")
    b.run(LOOP)
    within(b, "Control-A in a long text", 1000, lambda: b.keys("Control+a"))
    same(b.run("const t = $('text'); return t.selectionEnd - t.selectionStart"), len(text), "takes all of the text")
    other = "# other\n" + text
    within(b, "a paste of it", 3000, lambda: (b.keys("Control+a"), b.paste(other)))
    same(b.run("return $('text').value"), other, "keeps the text")


# the part of the space's canvas that is not of the colour of free units: each pixel by how much of it is the other colour
PART = """const c = $('space'), g = c.getContext('2d'), left = typeof GUTTER === 'undefined' ? 0 : GUTTER, d = devicePixelRatio;
  const free = arguments[0], used = arguments[1], part = (x, i) => (x - free[i]) / (used[i] - free[i]);
  const w = c.width - left * d, a = g.getImageData(left * d, 0, w, c.height).data; let sum = 0, n = 0;
  for (let row = 0; row < 6; row++) { const y = Math.round((row + 0.5) * c.height / 6);
    for (let x = 0; x < w; x++) { const i = 4 * (y * w + x); sum += Math.max(0, Math.min(1, part(a[i], 0))); n++; } }
  return sum / n"""
RGB = "const c = getComputedStyle(document.documentElement).getPropertyValue(arguments[0]).trim().slice(1); return [0, 2, 4].map(i => parseInt(c.slice(i, i + 2), 16))"


def space_is_whole(b):
    b.size(1100, 1250)
    b.open()
    free, used = b.run(RGB, "--free"), b.run(RGB, "--age8")
    play(b, "space 1000000 nodes 40000 index 32\nalloc 100000\n" + "report\n" * 12000)
    to(b, 12001)
    part = b.run(PART, free, used)
    holds(abs(part - 0.1) < 0.01, "one range of a tenth covers a tenth of the drawing", part)
    # of 10,000 ranges of 100 units, each tenth is live: a tenth of the space
    play(b, "space 1000000 nodes 40000 index 32\n" + "alloc 100\n" * 10000 + "".join(f"free {k}\n" for k in range(1, 10001) if k % 10) + "report\n" * 12000)
    to(b, 31000)
    part = b.run(PART, free, used)
    holds(abs(part - 0.1) < 0.02, "a thousand small ranges of a tenth cover a tenth", part)
    shown = b.run("return $('shown').textContent")
    holds(shown.startswith("Shown: units 0 to 1,000,000, all of the space"), "the page says what it shows", shown)
    play(b, "space 1000000 nodes 40000 index 32\nalloc 100000\n" + "report\n" * 12000)
    to(b, 12001)
    b.keys("+")
    b.run("document.activeElement.blur()")
    b.keys("+")
    shown = b.run("return $('shown').textContent")
    holds("25% of the space" in shown or "6.3% of the space" in shown, "the zoom says what it shows", shown)
    b.click("#zused")
    part = b.run(PART, free, used)
    holds(part > 0.97, "the used part is all used", part)


def edits_can_be_undone(b):
    b.open("#t=voxel-game&p=4000")
    lines = TRACES["voxel-game"].read_text().splitlines()
    same((row(b), b.run("return $('at').max")), (4000, "14773"), "row 4,000 of 14,773")
    b.run("$('n').value = ''")
    b.click("#act-alloc")
    fault = b.run("return $('fault').textContent")
    same((b.run("return $('at').max"), fault), ("14773", "alloc: Units has to be a number from 0 to 4,294,967,295"), "an empty field is no 0")
    b.run("$('n').value = '64'")
    b.click("#act-alloc")
    same((row(b), b.run("return $('at').max")), (4001, "4001"), "a call of one's own comes next")
    told = b.run("return [$('trace').selectedOptions[0].textContent, $('branched').textContent]")
    same(told, ["voxel game (yours, from row 4,000)", "Yours, from row 4,000: 1 call of yours, in place of 10,773 later rows of voxel game."],
         "the selector and a line say so")
    b.click("#show")
    until(b, "$('text').value.endsWith('alloc 64\\n')", "the text of the edited run")
    head = [line for line in lines if line.startswith("space")]
    expected = "\n".join(head + [line for line in lines if line and line[0] not in "#s"][:4000]) + "\nalloc 64\n"
    same(b.run("return $('text').value"), expected, "the text is that of the edited run")
    b.click("#answers")
    until(b, "S.saved", "the answers are saved")
    same(b.run("return S.saved.text()"), program(expected)[0], "so are the answers")
    b.run("S.saved = null")
    b.click("#export")
    until(b, "S.saved", "the text is saved")
    same(b.run("return S.saved.text()"), expected, "the edited run is exported")
    b.click("#act-compact")
    same(b.run("return $('at').max"), "4002", "a second call")
    b.click("#undo")
    same((row(b), b.run("return $('at').max")), (4001, "4001"), "undo")
    b.click("#redo")
    same((row(b), b.run("return $('at').max")), (4002, "4002"), "redo")
    b.click("#original")
    same((row(b), b.run("return $('at').max")), (4000, "14773"), "the original comes back by one click")
    same(b.run("return [$('branched').textContent, $('trace').selectedOptions[0].textContent]"),
         ["The original of voxel game. Your calls come back by Undo.", "voxel game"], "and is named")
    b.click("#undo")
    same((row(b), b.run("return $('at').max")), (4002, "4002"), "going back to the original can be undone")
    play(b, "space 100 nodes 8 index 32\nalloc 1\n")
    same((b.run("return $('told').textContent"), b.run("return $('at').max")), ("Your calls in voxel game are left.", "1"), "another run says what it leaves")
    b.click("#sayacts button")
    same((row(b), b.run("return [$('at').max, $('trace').value, $('branch').hidden]")), (4002, ["4002", "voxel-game", False]), "and a click brings it back")


def faults_are_seen(b):
    b.open()
    bad = "space 9 nodes 8 index 32\n" + "alloc 1\n" * 60 + "alloc x\n" + "alloc 2\n" * 60
    play(b, bad)
    told = "const r = $('fault').getBoundingClientRect(); return [r.height > 0 && r.top >= 0 && r.bottom <= innerHeight, $('fault').textContent]"
    same(b.run(told), [True, "line 62: bad command: “alloc x”"], "a fault is in sight, and quotes the line")
    same(b.run("const t = $('text'); return t.value.slice(t.selectionStart, t.selectionEnd)"), "alloc x", "the line is selected")
    for name, data, why in (
            ("crlf.script", b"space 9 nodes 8 index 32\r\nalloc 1\r\n", "line 1: bad header: “space 9 nodes 8 index 32”. Its lines end with CR LF"),
            ("bom.script", b"\xef\xbb\xbfspace 9 nodes 8 index 32\nalloc 1\n", "line 1: bad header: “space 9 nodes 8 index 32”. The text begins with a byte order mark (BOM)")):
        give(b, data, name)
        same(b.run(told), [True, f"{name}, {why}; a script has neither."], f"{name} says what is wrong")
        b.click("#sayacts button")
        until(b, "S.run.count === 1", "the mended text")
        same(b.run("return [$('fault').textContent, S.run.count]"), ["", 1], f"{name} is read without")
        b.open()


def keys_work_everywhere(b):
    b.open("#t=voxel-game&p=4000")
    for selector in ("#next", "#speed", "#trace", "#at", "#act-alloc", "#file", "#calls"):
        b.focus(selector)
        at = row(b)
        b.keys("Right", "Right", "Left")
        same((row(b), b.run("return [$('at').max, $('speed').value, S.name]")), (at + 1, ["14773", "600", "voxel-game"]), f"arrow keys with the focus on {selector}")
    b.click("#next")
    at = row(b)
    b.keys("Right")
    same(row(b), at + 1, "arrow keys after a click on a button")
    b.focus("#n")
    b.run("$('n').value = '64'")
    b.keys("Home", "5")
    same((row(b), b.run("return $('n').value")), (at + 1, "564"), "keys in a field are for its text")
    b.focus("#play")
    b.keys("End")
    same(row(b), 14773, "End")
    b.keys("g", "1", "2", "3", "Enter")
    same(row(b), 123, "g, a number and Enter")
    b.focus("#space") if b.run("return $('space').tabIndex >= 0") else b.run("document.activeElement.blur()")
    b.keys("b", "b")
    first = b.run("return $('block').textContent")
    holds(first.startswith("Grant 2 at 31,248: 2,604 units"), "a block is chosen by keys", first)
    same(b.run("return $('k').value"), "2", "and its number is in the field")
    b.keys("Enter")
    same(row(b), 2, "Enter goes to its row")
    b.keys("?")
    same(b.run("return [$('help').open, $('keylist').children.length > 30]"), [True, True], "? lists the keys")
    b.keys("Escape")
    reached = set()
    b.run("document.activeElement.blur(); scrollTo(0, 0)")
    for _ in range(170):
        b.keys("Tab")
        reached.add(b.run("return document.activeElement.id"))
    missing = b.run("return [...document.querySelectorAll('button, select, input, textarea')].filter(e => e.id && !e.disabled && e.getClientRects().length)"
                    ".map(e => e.id).filter(id => !arguments[0].includes(id))", list(reached))
    same(missing, [], "each control is reached by Tab")


def ages_differ(b):
    found = subprocess.run([sys.executable, WEB / "colours.py"], capture_output=True, text=True)
    holds(found.returncode == 0, "neighbours of the ages differ by 10 under each simulation", found.stdout + found.stderr)


def link_is_tested(b):
    b.open("#t=voxel-game&p=1.5")
    same([b.run("return $('at').max"), b.run("return $('fault').textContent.startsWith('The link is faulty')")], ["14773", True], "a faulty link blanks nothing")


def link_speaks(b):
    b.open("#t=voxel-game&p=9000")
    b.click("#link")
    until(b, "document.body.innerText.includes('The link to this state is')", "the link says what it did", 3)
    same(b.run("return location.hash"), "#p=9000&t=voxel-game", "the link is in the address bar")


def pointer_is_fresh(b):
    b.open()
    play(b, "space 100 nodes 16 index 32\nalloc 50\nfree 1\n")
    to(b, 1)
    b.point("#space", 0.1, 0.1)
    told = "return ($('block') || $('hover')).textContent"
    holds(b.run(told).startswith("Grant 1 at 0: 50 units"), "the block under the pointer", b.run(told))
    b.keys("Right")
    holds(b.run(told).startswith("Free at 0: 100 units"), "it is told anew after a step", b.run(told))
    holds("1 block." in b.run("return $('reports').textContent"), "one block is no blocks", b.run("return $('reports').textContent"))


def lives_are_sharp(b):
    b.size(800, 900, 2)
    b.open()
    play(b, "space 100 nodes 16 index 32\nalloc 50\n" + "report\n" * 100 + "free 1\n" + "report\n" * 97)
    to(b, 199)
    # the end of a life: a picture that is drawn at half the points of the screen fades over several columns
    fading = b.run("""const c = $('life'), g = c.getContext('2d'), x = Math.round(c.width * 0.4), w = Math.round(c.width * 0.3);
      const a = g.getImageData(x, Math.round(c.height * 0.85), w, 1).data, at = i => a.slice(4 * i, 4 * i + 4).join();
      let n = 0; for (let i = 0; i < w; i++) if (at(i) !== at(0) && at(i) !== at(w - 1)) n++; return [n, at(0) !== at(w - 1)]""")
    holds(fading[1] and fading[0] <= 1, "lives are as sharp as the screen", fading)


def narrow_fits(b):
    b.size(320, 800)
    b.open("#t=voxel-game&p=9000")
    same(b.run("return document.documentElement.scrollWidth - document.documentElement.clientWidth"), 0, "no overflow at 320 pixels")
    give(b, "space 100 nodes 16 index 32\nalloc 50\n", "a-file-of-a-very-long-name-that-no-window-is-wide-enough-for-at-all.script")
    same(b.run("return document.documentElement.scrollWidth - document.documentElement.clientWidth"), 0, "no overflow of a long name")


def work_is_in_slices(b):
    b.open()
    text = "space 1000000 nodes 4096 index 32\n" + "full\n" * 190000
    b.run(LOOP)
    no_long_task(b, "no task of 190,000 full reports is long", 100, lambda: give(b, text))
    same(b.run("return $('at').max"), "190000", "all is played")
    b.open()
    give(b, text, waits=False)
    until(b, "!$('work').hidden && /^(Reading|Playing): [0-9]+%$/.test($('doing').textContent) && ($('stop').click(), true)", "progress is shown")
    until(b, "$('work').hidden", "the work has stopped")
    same(b.run("return [$('at').max, $('told').textContent.endsWith('stopped. Nothing has changed.')]"), ["14773", True], "work can be stopped, and changes nothing")


ALL = [made_of_sources, words_in_comments_ask_for_no_page, text_is_fast, space_is_whole, edits_can_be_undone, faults_are_seen, keys_work_everywhere, ages_differ,
       link_is_tested, link_speaks, pointer_is_fresh, lives_are_sharp, narrow_fits, work_is_in_slices]
