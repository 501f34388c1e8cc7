"""That nothing is lost, and nothing silent: cut recordings, files and texts of every kind, links, and what the page may do."""

import base64
import zlib

from .base import give, holds, play, row, same, to, until

CUT = "space 100000 nodes 4096 index 32\n" + "alloc 10\n" * 1300
STATE = "return [S.run.count, $('fault').textContent, $('told').textContent, [...$('sayacts').children].map(b => b.textContent)]"


def cut_recordings(b):
    for half in ("fre", "free 12", "free 123", "alloc 1", "#"):
        b.open()
        give(b, CUT + half, "heap.script")
        told = f"The last line of heap.script, “{half}”, has no line feed: it may be cut, and is not played."
        same(b.run(STATE), [1300, "", told, ["Play it too"]], f"cut in its last line, {half}: the lines before are played")
    b.open()
    give(b, CUT + "free 12", "heap.script")
    b.click("#sayacts button")
    until(b, "S.run.count === 1301", "the last line too")
    same(b.run(STATE)[1:3], ["", ""], "the last line is played where the user says so")
    b.open()
    play(b, CUT + "free 12")
    same(b.run(STATE)[:3], [1301, "", ""], "what is typed needs no line feed")
    b.open()
    give(b, "space 100 nodes 16 index 32", "heap.script")
    same(b.run(STATE)[:3], [0, "", ""], "a header alone cannot be cut to another")
    give(b, CUT + "fr\nalloc 5\n", "heap.script")
    b.click("#sayacts button")
    until(b, "S.run.count === 1300", "the lines before a faulty one")
    same(b.run("return $('fault').textContent"), "", "what comes before a faulty line can be played")


TINY = "space 100 nodes 16 index 32\nalloc 50\nfree 1\n"


def link_of(text):
    packer = zlib.compressobj(9, wbits=-15)
    return "#s=" + base64.urlsafe_b64encode(packer.compress(text.encode()) + packer.flush()).decode().rstrip("=")


def files_that_cannot_be_read(b):
    b.open()
    give(b, TINY, "huge.script", before="File.prototype.arrayBuffer = () => Promise.reject(new DOMException('it could not be read', 'NotReadableError'))")
    same(b.run(STATE)[:2], [14773, f"huge.script, {len(TINY)} bytes, cannot be read: it could not be read"], "a file that cannot be read says so")


def kinds_of_texts(b):
    png = b"\x89PNG\r\n\x1a\n" + bytes(200)
    for name, data, told in (
            ("cr.script", TINY.replace("\n", "\r").encode(), "bad header: “space 100 nodes 16 index 32”. Its lines end with CR; a script has neither."),
            ("wide.script", TINY.encode("utf-16"), "bad header. It is in UTF-16; a script is a text in UTF-8."),
            ("big.script", b"\xfe\xff" + TINY.encode("utf-16-be"), "bad header. It is in UTF-16; a script is a text in UTF-8."),
            ("heap.png", png, "bad header. It is a picture (PNG); a script is a text in UTF-8."),
            ("heap.gz", b"\x1f\x8b\x08" + bytes(30), "bad header. It is compressed (gzip); a script is a text in UTF-8."),
            ("heap.zip", b"PK\x03\x04" + bytes(30), "bad header. It is an archive (ZIP); a script is a text in UTF-8."),
            ("large.script", b"space 5000000000 nodes 16 index 32\n", "bad header: “space 5000000000 nodes 16 index 32”. A number is above 4,294,967,295.")):
        b.open()
        give(b, data, name)
        same(b.run(STATE)[1], f"{name}, line 1: {told}", f"{name} is named as what it is")
        if name in ("cr.script", "wide.script", "big.script"):
            b.click("#sayacts button")
            until(b, "S.run.count === 2", "the mended text")
            same(b.run(STATE)[:2], [2, ""], f"{name} is read all the same")
    give(b, TINY + "alloc 4294967296\n", "large.script")
    same(b.run(STATE)[1], "large.script, line 4: bad command: “alloc 4294967296”. A number is above 4,294,967,295.", "a too large number of a call")


def texts_from_anywhere(b):
    b.open()
    b.run("document.activeElement.blur()")
    b.paste(TINY)
    until(b, "S.run.count === 2 && !Work.now", "a text that is pasted outside of inputs plays")
    b.focus("#text")
    b.paste("space 9 nodes 8 index 32\nalloc 1\n")
    same(b.run("return [S.run.count, $('text').value]"), [2, "space 9 nodes 8 index 32\nalloc 1\n"], "in an input it does not")
    b.run("const t = new DataTransfer(); t.setData('text/plain', arguments[0]); document.body.dispatchEvent(new DragEvent('drop', { dataTransfer: t, bubbles: true, cancelable: true }))",
          "space 9 nodes 8 index 32\nalloc 1\nalloc 1\nfree 1\n")
    until(b, "S.run.count === 3 && !Work.now", "a text that is dropped plays")
    b.run("const t = new DataTransfer(); t.setData('text/plain', arguments[0]); $('text').dispatchEvent(new DragEvent('drop', { dataTransfer: t, bubbles: true, cancelable: true }))", TINY)
    same(b.run("return [S.run.count, Work.now]"), [3, None], "in an input it does not")
    print("passed: texts pasted and dropped anywhere play", flush=True)


def a_reload_asks(b):
    asks = "const e = new Event('beforeunload', { cancelable: true }); dispatchEvent(e); return e.defaultPrevented"
    b.open("#t=voxel-game&p=9000")
    same(b.run(asks), False, "a stored run is not lost with the page")
    b.run("act('alloc')")
    same(b.run(asks), True, "calls of the user's are: it asks")
    b.open()
    give(b, TINY, "my heap.script")
    same([b.run(asks), b.run("return document.title")], [True, "my heap.script – offset_allocator"], "it asks before a file is lost, and the tab has its name")
    b.run("return link()")
    same(b.run(asks), False, "a link has it")
    b.open(b.run("return location.hash"))
    same(b.run("return [S.title, document.title, S.run.count]"), ["my heap.script", "my heap.script – offset_allocator", 2], "with its name")


def links_are_bounded(b):
    b.open(link_of("x" * (80 << 20)))
    same(b.run(STATE)[:2], [483, "The link is faulty: its text has more than 64 MiB. This is the nearest state."], "a link of 80 MiB is refused")
    b.open(link_of(TINY + "#" + "x" * (60 << 20) + "\n"))
    same(b.run(STATE)[:2], [2, ""], "one of 60 MiB is read")


def no_other_code_runs(b):
    b.open()
    found = b.run("""const s = document.createElement('script'); s.textContent = 'window.evil = 1'; document.body.append(s);
      const d = document.createElement('div'); d.innerHTML = '<img src="data:," onerror="window.evil = 2">'; document.body.append(d);
      setTimeout('window.evil = 3', 0);
      return new Promise(r => setTimeout(() => fetch('data:,x').then(() => r([window.evil, 'fetched']), () => r([window.evil, 'refused'])), 200))""")
    b.faults()
    same(found, [None, "refused"], "no script but the page's runs, and nothing is fetched")


def names_in_pictures(b):
    b.open()
    give(b, TINY, "a\u0001b\u001f<c>\u007f.script")
    b.run("S.saved = null")
    b.click("#picture")
    until(b, "S.saved", "the picture")
    found = b.run("return S.saved.text().then(t => { const d = new DOMParser().parseFromString(t, 'image/svg+xml'); return [d.querySelectorAll('parsererror').length, d.querySelector('text')?.textContent] })")
    same(found, [0, "ab<c>.script: 2 calls, 0 refusals"], "control characters of a file's name are not in the saved picture")


def back_and_forward(b):
    """Each run and each jump is a place of the browser's history; steps are none."""
    b.open("#t=arena-game&p=100")
    state = "return [S.p, S.title, document.title.split(' –')[0], S.run.count]"
    arena = b.run("return S.run.count")
    there = lambda way, p, title: (b.run(f"history.{way}()"), until(b, f"S.p === {p} && S.title === '{title}' && document.title.startsWith('{title}')", f"{way} to row {p} of {title}"))
    b.run("document.activeElement.blur()")
    b.keys("Right", "Right")
    b.keys("End")
    same(b.run(state), [arena, "arena game", "arena game", arena], "a jump")
    b.keys("Left")
    there("back", 102, "arena game")
    there("forward", arena - 1, "arena game")
    give(b, CUT, "heap.script")
    to(b, 700)
    b.run("edit(700, [[0, 64, 0]])")
    same(b.run(state), [701, "heap.script", "heap.script", 701], "a file, and a call of the user's in it")
    b.run("document.querySelectorAll('#calls .row')[2].click()")
    holds(row(b) < 701, "a row of the list", row(b))
    at = row(b)
    there("back", 701, "heap.script")
    there("back", arena - 1, "arena game")
    same(b.run("return [S.run.count, $('trace').value, $('branch').hidden]"), [arena, "arena-game", True], "the run before, with all its rows")
    there("back", 102, "arena game")
    there("forward", arena - 1, "arena game")
    there("forward", 701, "heap.script")
    same(b.run("return [S.run.count, $('branch').hidden, $('undo').disabled]"), [701, False, False], "the file, with the user's call")
    there("forward", at, "heap.script")
    b.run("location.hash = '#t=voxel-game&p=5'")
    until(b, "S.title === 'voxel game' && S.p === 5", "a link in the address bar")
    there("back", at, "heap.script")
    for name in ("one", "two", "three", "four"):
        give(b, TINY, f"{name}.script")
    b.run("history.go(-4)")
    until(b, "$('told').textContent === 'heap.script is not kept: give its file again.'", "of many files the last are kept, and it says so")
    same(b.run("return S.title"), "four.script", "what is shown stays")


ALL = [back_and_forward, cut_recordings, files_that_cannot_be_read, kinds_of_texts, texts_from_anywhere, a_reload_asks, links_are_bounded, no_other_code_runs, names_in_pictures]
