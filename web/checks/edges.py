"""The edges of what is counted and drawn, each by a case worked out by hand: `web/plant` changes the page at each of them, and these
checks have to refuse it."""

from .base import give, holds, recorded, row, same, to, until
from .finding import look
from .refusals import FRAGMENTED, explanations, tried


def names_are_looked_for_as_written(b):
    """Large and small letters differ; a dot ends the beginning of a name; what is never freed has the units that it has now."""
    text = "space 1000 nodes 64 index 32\n# Mesh.rock\nalloc 10\n# mesh.tree\nalloc 100\n# sound.step\nalloc 30\nshrink 2 40\nfree 3\n"
    b.open()
    give(b, text, "names.script")
    b.run("go(S.run.count)")
    same(look(b, fname="mesh")[2], "1 range granted, 100 units; never freed: 1 range, 40 units.", "small letters, and the units that are left")
    same(look(b, fname="MESH")[2], "0 ranges granted, 0 units; never freed: 0 ranges, 0 units.", "large letters")
    same(look(b, fname="Mesh*")[2], "1 range granted, 10 units; never freed: 1 range, 10 units.", "a beginning")
    b.click("#fclear")
    b.run("$('byname').value = '1'; return $('byname').onchange()")
    same(b.run("return [...$('grouprows').rows].map(r => [...r.cells].map(c => c.textContent))"),
         [["mesh", "1", "40", "1", "40"], ["Mesh", "1", "10", "1", "10"], ["sound", "0", "0", "0", "0"]], "names by a dot, and what is never freed as it is now")


def marks_bound_what_is_between(b):
    """A range of the row before a mark is not between that and the next."""
    b.open()
    give(b, "space 1000 nodes 64 index 32\nalloc 1\nalloc 2\n#! frame\nalloc 4\nalloc 8\n#! frame\nalloc 16\n", "marks.script")
    b.run("$('mfrom').value = 1; $('mto').value = 2; return betweenMarks()")
    same(b.run("return $('found').textContent"), "2 ranges granted, 12 units; never freed: 2 ranges, 12 units.", "those of the rows between two marks")


def of_equal_costs_the_fewest_go(b):
    """Of ranges of as many units the fewest are released, of as few the first."""
    b.open()
    # 50, 50 and 100 units, then 100, each with 20 free units about it; 126 are rounded up to 128
    text = "space 420 nodes 32 index 32\n" + "".join(f"at {o} {n}\n" for o, n in ((20, 50), (70, 50), (140, 100), (260, 100), (380, 40))) + "alloc 126\n"
    (_, _, _, helps), = explanations(b, text)
    holds(any(help.startswith("release 1 range of 100 units, from 140 to 240 (dashed): grant 3 ") for help in helps), "one of 100 rather than two of 50, and the first", helps)


def pictures_take_the_least(b):
    """Where a pixel has many calls: the most units in use, the fewest free units and the smallest request."""
    b.size(1100, 1250)
    b.open()
    give(b, "space 1000 nodes 16 index 32\n" + "".join(f"alloc 500\nfree {k}\n" for k in range(1, 50001)), "many.script")
    least = int(recorded("space 1000 nodes 16 index 32\nalloc 500\nreport\n")[0].split("largest ")[1])
    same(b.run("const { used, largest } = S.run.curves; return [[...new Set(used)], [...new Set(largest)]]"), [[500], [least]], "the curves")
    b.run("zoomLives(1000, 9000, 0, S.run.top)")
    same(b.run("const { used, largest } = S.run.curves; return [[...new Set(used)], [...new Set(largest)]]"), [[500], [least]], "in a part, where calls are few")
    b.run("S.life = null; S.saved = null; return $('picture').onclick()")
    areas = b.run("return S.saved.text().then(t => [...new DOMParser().parseFromString(t, 'image/svg+xml').querySelectorAll('path')].map(e => e.getAttribute('d')).filter(d => d.startsWith('M52 538') && d.endsWith('z')))")
    heights = [{pair.split()[1] for pair in d.rstrip("z").split("L")[2:-2]} for d in areas]
    same(heights, [{"487.5"}, {f"{round(10 * (538 - least / 1000 * 101)) / 10:g}"}], "the saved picture")


def ends_are_where_they_are(b):
    """A grant is not live in the row that frees it; the node limit is said at its last block, and not before."""
    b.open()
    give(b, "space 100 nodes 4 index 32\nalloc 10\nalloc 20\nfree 1\nfree 1\n", "few.script")
    b.run("S.grant = 1; go(2)")
    holds(b.run("return $('block').textContent").startswith("Grant 1 at 0: 10 units"), "live before that row")
    b.run("S.grant = 1; go(3)")
    same(b.run("return $('block').textContent"), "grant 1 is not live here.", "and not in it")
    b.run("go(4)")
    same(b.run("return $('facts').textContent"), "grant 1 ended in row 3: freed", "when it ended")
    said = b.run("return [1, 2, 3].map(p => { go(p); return $('reports').textContent.includes('as many as the node limit admits'); })")
    same(said, [False, True, True], "three blocks are as many as a limit of 4 admits")
    b.run("zoomLives(0, 5, 0, S.run.top)")
    found = b.run("return [1, 2, 3].map(p => underLife(S.run, [(p + 0.5) / 5, 0.9]).split(': ').slice(1).join(': '))")
    same(found, ["grant 1, 10 units at 0, live since row 1, up to row 3."] * 2 + ["free, 10 units at 0."], "under the pointer too")


def frames_are_side_by_side(b):
    """Frames of three calls beside frames of five: within a frame by parts of it, after the last row by row."""
    first = "space 100 nodes 16 index 32\n" + "report\nreport\nreport\n#! frame\n" * 2 + "report\n" * 2
    second = "space 100 nodes 16 index 32\n" + "report\n" * 5 + "#! frame\n" + "report\n" * 5 + "#! frame\n" + "report\n" * 9
    b.open()
    give(b, first, "first.script")
    b.run("const f = new File([arguments[0]], 'second.script'), t = new DataTransfer(); t.items.add(f); $('xfile').files = t.files; return $('xfile').onchange()", second)
    same(b.run("return [...S.other.at]"), [0, 2, 3, 5, 7, 8, 10, 11, 12], "their rows")


def differences_are_stepped_through(b):
    b.open()
    give(b, FRAGMENTED, "fragmented.script")
    b.run("return compare([3400, 32, 1, 0])")
    rows = b.run("return S.other.rows")
    holds(len(rows) > 1, "more than one difference", rows)
    b.run("go(0)")
    found = []
    for _ in rows:
        b.click("#xnext")
        found.append(row(b))
    same(found, rows, "next goes to each")
    b.click("#xback")
    same(row(b), rows[-2], "and back to the one before")


def a_heap_has_its_last_curve(b):
    """The time of a heap's row goes up to its end: of one that lives on up to that of the file."""
    text = "heap 0 space 100 nodes 16 index 32\nheap 1 space 100 nodes 16 index 32\n" + "heap 0 alloc 1\n" * 58 + "heap 1 alloc 50\nheap 1 give up\n" + "heap 0 report\n" * 57 + "heap 0 extend 900\n"
    b.open()
    give(b, text, "heaps.script")
    last = text.count("\n") + 1
    found = b.run("return S.run.file.parts.map(({ seen }) => [seen.curve.findIndex(v => v >= 0), seen.curve.findLastIndex(v => v >= 0)])")
    same(found, [[int(1 / last * 120), 119], [int(2 / last * 120), int(62 / last * 120)]], "from its first line to its last")


def a_relocation_has_the_nodes_it_needs(b):
    """At a multiple a second range may need a free block before it and one after it."""
    b.open()
    # 104 units free at 5, of which a multiple of 8 leaves some on both sides; no further block may exist
    lines = ["alloc 5", "alloc 104", "alloc 100", "alloc 20", "free 2"]
    for nodes in (6, 7):
        head = f"space 229 nodes {nodes} index 32"
        found = explanations(b, "\n".join([head, *lines, "relocate 4 8"]) + "\n")
        answer = recorded("\n".join([head, *lines, "relocate 4 8"]) + "\n")[0].splitlines()[-1]
        same(bool(found), answer == "none", f"a limit of {nodes}")
        for _, _, facts, helps in found:
            holds(any(help.startswith("more nodes: a limit of 7") for help in helps), "two more blocks", (facts, helps))
            tried(head, lines, "relocate 4 8", helps, "an aligned one that lacks nodes")


ALL = [names_are_looked_for_as_written, marks_bound_what_is_between, of_equal_costs_the_fewest_go, pictures_take_the_least, ends_are_where_they_are, frames_are_side_by_side,
       differences_are_stepped_through, a_heap_has_its_last_curve, a_relocation_has_the_nodes_it_needs]
