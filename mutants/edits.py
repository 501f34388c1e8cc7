"""The mutants: edits of a crate's sources that the prover has to refuse.

An edit is a file `NAME.edit`. Its first line, a comment that begins with `# `, is a sentence that says what the wrong
body does. After it are lines `file: PATH`, `old: TEXT` and `new: TEXT`: the one occurrence of the old text in that file
becomes the new one, and further pairs change what the earlier ones made.
"""
import difflib
import re
import subprocess
import sys
from pathlib import Path

TOP = Path(__file__).resolve().parent.parent
PRINTED = TOP / "mutants" / "gate.txt"
LONGEST = 100


class Wrong(Exception):
    """Why an edit cannot be applied."""


class Edit:
    def __init__(self, crate, path, is_in_gate):
        self.crate, self.path, self.is_in_gate = crate, path, is_in_gate
        self.name = path.stem
        self.label = f"{crate}/{self.name}"
        self.lines = path.read_text(encoding="utf-8").split("\n")
        self.sentence = self.lines[0].removeprefix("# ")

    def texts(self, others=()):
        """The texts of the files that the edit, or some others before it, change, by their paths in the crate."""
        texts = others[-1].texts(others[:-1]) if others else {}
        file, old, pairs = None, None, 0
        for line in self.lines:
            key, _, text = line.partition(":")
            text = text[1:] if text.startswith(" ") else text
            if key == "file":
                file, old = text.strip(), None
            elif key == "old":
                old = text
            elif key == "new":
                if not file or not old:
                    raise Wrong("a line 'new:' is before any line 'file:' or 'old:'")
                if file not in texts:
                    source = TOP / "crates" / self.crate / file
                    if not source.is_file():
                        raise Wrong(f"there is no file {file}")
                    texts[file] = source.read_text(encoding="utf-8")
                found = texts[file].count(old)
                if found != 1:
                    raise Wrong(f"an 'old:' text is in {file} {found} times, and not once")
                texts[file] = texts[file].replace(old, text)
                old, pairs = None, pairs + 1
        if not pairs:
            raise Wrong("it has no pair of lines 'old:' and 'new:'")
        return texts

    def functions(self):
        """The names of the functions in whose bodies the edit is, each with the end of its path that tells it from
        others, where that can be told; none where a part of the edit is elsewhere."""
        file, found, texts = None, {}, {}
        for line in self.lines:
            key, _, text = line.partition(":")
            text = text[1:] if text.startswith(" ") else text
            if key == "file":
                file = text.strip()
            elif key == "old":
                old = text
            elif key == "new":
                source = texts.get(file) or (TOP / "crates" / self.crate / file).read_text(encoding="utf-8")
                at = function_at(source, source.index(old)) if file.endswith(".rt") else None
                if not at:
                    return {}
                name, home = at
                found[name] = name if home is None else "::".join([*(home or module_of(file)), name])
                texts[file] = source.replace(old, text)
        return found

    def problems(self):
        said = self.sentence
        if not self.lines[0].startswith("# ") or not said.endswith("."):
            yield f"{self.label}: its first line is no comment with a sentence that says what the wrong body does"
        elif "`" not in said or "|" in said or len(said) > LONGEST:
            yield f"{self.label}: its sentence names no function in backticks, has a `|`, or is longer than {LONGEST}"
        try:
            self.texts()
        except Wrong as why:
            yield f"{self.label}: {why}"


HEAD = re.compile(r"( *)(?:pub(?:\([a-z]+\))? )?(?:const )?(?:extern \"C\" )?fn (\w+)")
IMPL = re.compile(r"impl(?:<(.*?)>)? (?:(?:\w+::)*(\w+) for )?([A-Z]\w*)(?:<([^<>]*)>)? \{$")


def module_of(file):
    """The path of a file's module below the crate, in parts."""
    parts = Path(file).with_suffix("").parts[1:]
    return [] if parts in (("lib",), ("main",)) else [*parts]


def home_of(line):
    """The name under which a check has what is written in an `impl` that begins with this line, or `None` where that has
    arguments that are no parameters in it."""
    found = IMPL.match(line)
    parameters = re.findall(r"'?\w+", found[1] or "") if found else []
    if not found or found[2] and any(it.strip() not in parameters for it in (found[4] or "").split(",") if it):
        return None
    return [found[3] + (found[2] or "")]


def bodies(source):
    """The functions of a source: the name of each, the name of its `impl` (none where it has none, `None` where that
    cannot be told), and the places where its body begins and ends."""
    at, head, place, home = 0, None, None, None
    for line in source.split("\n"):
        if line[:1].isalpha():
            home = home_of(line)
        if began := HEAD.match(line):
            head, place, has_clauses = began, None, False
        has_clauses = head is not None and (has_clauses or line.lstrip().startswith(("requires", "ensures")))
        at += len(line) + 1
        if head and place is None and (line == head[1] + "{" or line.endswith("{") and not has_clauses):
            place = at
        elif head and place is not None and line == head[1] + "}":
            yield head[2], home if head[1] else [], place, at
            head = None


def names(crate):
    """The name of each function of a crate, as often as there is one."""
    sources = [it.read_text(encoding="utf-8") for it in (TOP / "crates" / crate / "src").rglob("*.rt")]
    return [name for source in sources for name, *_ in bodies(source)]


def function_at(source, place):
    """The name and the type of the function in whose body this place is, or `None`."""
    return next(((name, home) for name, home, begin, end in bodies(source) if begin <= place < end), None)


def calls(crate):
    """For each function of a crate, by its name, the names of those that it calls, as the sources read."""
    found = {}
    for file in (TOP / "crates" / crate / "src").rglob("*.rt"):
        source = file.read_text(encoding="utf-8")
        for name, _, begin, end in bodies(source):
            found.setdefault(name, set()).update(re.findall(r"\b(\w+)(?:::<[^(]*>)?\(", source[begin:end]))
    return found


def reached(graph, names):
    """The functions that these may call, directly or not, and these."""
    found, left = set(), [*names]
    while left:
        name = left.pop()
        if name not in found:
            found.add(name)
            left += graph.get(name, ())
    return found


def folders():
    """The folders that may have edits, each with its crate and whether the gate tries them."""
    for crate in sorted(it for it in (TOP / "crates").iterdir() if it.is_dir()):
        yield crate.name, TOP / "mutants" / "gate" / crate.name, True
        yield crate.name, TOP / "mutants" / crate.name, False


def every():
    """All edits: crate by crate, each crate's by their names."""
    found = [Edit(crate, it, gate) for crate, folder, gate in folders() for it in folder.glob("*.edit")]
    return sorted(found, key=lambda it: (it.crate, it.name, it.is_in_gate))


def table(edits):
    """The sentences of these edits, by crate."""
    lines = []
    for crate in dict.fromkeys(it.crate for it in edits):
        rows = [it for it in edits if it.crate == crate]
        lines += [f"{crate}: {len(rows)}", *(f"    {it.name}: {it.sentence}" for it in rows), ""]
    return lines


def gate_table(edits):
    """The printed table: the edits that the gate tries."""
    head = ["The mutants that the gate tries, by their names and by what the wrong body does.", "Written by `mutants/table --write`.", ""]
    return "\n".join([*head, *table([it for it in edits if it.is_in_gate])])


def problems(edits):
    """What is wrong with the edits, or with the printed table."""
    found = [problem for it in edits for problem in it.problems()]
    known = {folder for _, folder, _ in folders()}
    there = [it for top in ("mutants", "mutants/gate") for it in (TOP / top).iterdir() if it.is_dir()]
    for folder in [*known, *(it for it in there if it.name not in ("__pycache__", "gate"))]:
        if folder not in known:
            found.append(f"{folder.relative_to(TOP)}: there is no crate of this name")
        for it in folder.iterdir() if folder.is_dir() else []:
            if not re.fullmatch(r"\w+\.edit", it.name):
                found.append(f"{it.relative_to(TOP)}: the name of an edit has letters, digits and _, and ends in .edit")
    labels = [it.label for it in edits]
    found += [f"{it}: two edits have this name" for it in sorted({it for it in labels if labels.count(it) > 1})]
    printed = PRINTED.read_text(encoding="utf-8") if PRINTED.exists() else ""
    for line in difflib.ndiff(printed.split("\n"), gate_table(edits).split("\n")):
        if line[:1] in "+-" and line[2:].strip():
            found.append(f"{PRINTED.name}: {'missing' if line[0] == '+' else 'not of an edit'}: {line[2:]}")
    return found


def stop_on_problems(edits):
    found = problems(edits)
    for it in found:
        print(it)
    if found:
        sys.exit(f"mutants: {len(found)} faults; nothing was tried, and `mutants/table --write` prints the table")


def tracked():
    """The files of the work tree that git tracks or would track, by their paths from the top."""
    words = ["git", "-C", str(TOP), "ls-files", "-co", "--exclude-standard", "-z"]
    found = subprocess.run(words, check=True, stdout=subprocess.PIPE).stdout.decode().split("\0")
    return [it for it in found if it and (TOP / it).is_file()]
