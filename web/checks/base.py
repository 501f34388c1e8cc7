"""What all checks of the page share: the programs that answers are compared with, and how a check reports."""

import base64
import functools
import pathlib
import subprocess

WEB = pathlib.Path(__file__).resolve().parent.parent
RUST = WEB / "../rust"
TRACES = {path.stem: path for path in [WEB / "levels.script", *sorted((WEB / "../bench/traces").glob("*.script")), WEB / "every.script"]}


@functools.cache
def built(name):
    subprocess.run(["cargo", "build", "--quiet", "--release", "--offline", "-j1", "-p", "offset-script", "-p", "offset-allocator-recorded"],
                   cwd=RUST, check=True)
    return RUST / "target/release" / name


def program(text, name="offset-script"):
    """What the erased program answers to a script, and its fault; or the one that plays recordings."""
    data = text if isinstance(text, bytes) else text.encode()
    done = subprocess.run([built(name)], input=data, capture_output=True)
    return done.stdout.decode(), done.stderr.decode().strip()


def recorded(text):
    return program(text, "play-recording")


def same(found, expected, what):
    assert found == expected, f"{what}: {found!r:.400}, not {expected!r:.400}"
    print("passed:", what, flush=True)


def holds(is_so, what, found=""):
    assert is_so, f"{what}: {found!r:.400}"
    print("passed:", what, flush=True)


def until(b, condition, what, seconds=20):
    """Waits until a script's value is true."""
    found = b.run("const end = performance.now() + 1000 * arguments[0]; return new Promise(r => { const f = () => "
                  f"({condition}) ? r(true) : performance.now() > end ? r(false) : setTimeout(f, 20); f(); }})", seconds)
    assert found, f"not reached: {what}"


def give(b, data, name="yours.script", waits=True, before=""):
    """Gives a file to the page, as the user does by its control; just before that a script is run."""
    b.run("const f = new File([Uint8Array.from(atob(arguments[0]), c => c.charCodeAt(0))], arguments[1]), t = new DataTransfer(); "
          "t.items.add(f); $('file').files = t.files; " + before + "; const done = $('file').onchange(); return arguments[2] ? done : 0",
          base64.b64encode(data if isinstance(data, bytes) else data.encode()).decode(), name, waits)


def play(b, text):
    """Puts a text into the text area, and presses the button below it."""
    b.run("$('text').value = arguments[0]", text)
    b.click("#load")
    b.run("return new Promise(r => { const f = () => Work.now ? setTimeout(f, 10) : r(0); setTimeout(f, 30); })")


def row(b):
    return int(b.run("return $('at').value"))


def to(b, p):
    b.run("$('at').value = arguments[0]; $('at').oninput(); $('at').onchange?.()", p)
