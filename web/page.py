"""Puts the parts, the module and the traces into the page: page.py MODULE PAGE. Traces are deflated. The page ends with the
sum of the sources that it is made of, without their comments: a word in one asks for no other page.

    page.py --bare FOLDER    takes the comments out of the sources in a folder, from which the module is built"""

import base64
import hashlib
import pathlib
import re
import sys
import zlib

here = pathlib.Path(__file__).resolve().parent
# in the order in which they come in the page
PARTS = [here / "parts" / f"{name}.js" for name in
         ("module", "work", "reading", "dumps", "run", "reasons", "refused", "draw", "lists", "find", "marks", "heaps", "state", "compare", "show", "picture", "controls")]
# what is no comment, though it may have the signs of one: texts, and characters
RUST = re.compile(r"""(b?r(#*)"(?:.*?)"\2|b?"(?:\\.|[^"\\])*"|b?'(?:\\[^\n]|[^\\'\n])')|//[^\n]*|/\*(?:(?!\*/).)*\*/""", re.S)


def bare(name, text):
    """A source without comments and empty lines: those of Rust wherever they are, of others where a line has nothing else."""
    if name.endswith(".rs"):
        text = RUST.sub(lambda found: found[1] or " ", text)
    sign = {"js": "//", "html": "//", "toml": "#", "py": "#"}.get(name.rpartition(".")[2])
    kept = (line.rstrip() for line in text.split("\n"))
    if name.endswith(".html"):
        kept = (line for line in kept if not re.fullmatch(r"\s*/\*.*\*/", line))
    return "\n".join(line for line in kept if line and not (sign and line.lstrip().startswith(sign))) + "\n"


def base(data):
    return base64.b64encode(data).decode()


def deflated(path):
    packer = zlib.compressobj(9, wbits=-15)
    return base(packer.compress(path.read_bytes()) + packer.flush())


def traces():
    return [here / "levels.script", *sorted((here / "../bench/traces").glob("*.script")), here / "every.script"]


def sources():
    """All that the page is made of, except the compiler and std."""
    crates = [here / "../rust" / name for name in
              ("offset-allocator-memory", "offset-allocator-proved", "offset-allocator-guarded", "offset-allocator-heaps",
               "offset-script", "offset-calls", "offset-pictures", "offset-allocator-recorded")]
    files = [here / "source.html", here / "page.py", *PARTS, *sorted((here / "module").glob("*.*"))]
    for crate in crates:
        files += [crate / "Cargo.toml", *sorted(crate.glob("src/**/*.rs"))]
    return files


def sum_of_sources():
    found = hashlib.sha256()
    for path in [*sources(), *traces()]:
        data = path.read_bytes() if path.suffix == ".script" else bare(path.name, path.read_text(encoding="utf-8")).encode()
        found.update(f"{path.name} {len(data)}\n".encode())
        found.update(data)
    return found.hexdigest()


def sum_within(page):
    """The sum that a page has of its sources, or `None`."""
    found = re.search(r"<!-- made of ([0-9a-f]{64}) -->\n\Z", page)
    return found and found[1]


def strip(folder):
    """Takes the comments out of the sources of a folder."""
    for path in sorted(pathlib.Path(folder).rglob("*")):
        if path.suffix in (".rs", ".toml") and path.is_file():
            text = bare(path.name, path.read_text(encoding="utf-8"))
            # nor is it said that documentation is missing
            path.write_text(text.replace("#![warn(missing_docs)]\n", ""), encoding="utf-8")


def main(module, to):
    named = ",\n".join(f"  '{path.stem}': '{deflated(path)}'" for path in traces())
    without = lambda path: bare(path.name, path.read_text(encoding="utf-8"))
    page = without(here / "source.html").replace("@SCRIPT@", "".join(without(path) for path in PARTS).rstrip("\n"))
    page = page.replace("@TRACES@", named)
    page = page.replace("@MODULE@", base(pathlib.Path(module).read_bytes()))
    script = page[page.index("<script>") + len("<script>"):page.index("</script>")]
    page = page.replace("@HASH@", "sha256-" + base(hashlib.sha256(script.encode()).digest()))
    pathlib.Path(to).write_text(f"{page}<!-- made of {sum_of_sources()} -->\n", encoding="utf-8")


if __name__ == "__main__":
    if sys.argv[1] == "--bare":
        strip(sys.argv[2])
    else:
        main(*sys.argv[1:])
