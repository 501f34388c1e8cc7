"""The links within docstrings: what a docstring names in backticks, a method of its type, or a public type or reason of its
crate, leads there. `erase` writes them, and `blocks` sees that the files written by hand have them too."""
import re

IMPL = re.compile(r"^ {0,4}impl(?:<.*?>)? (\w+)[^{]*\{$")
TICKED = re.compile(r"(?<!\[)`(\w+)`")


def owner_of(line):
    """The type whose inherent impl begins in this line."""
    found = IMPL.match(line)
    return found[1] if found and " for " not in line else None


def named(texts, root):
    """The public methods of each type, and where the public types of the root and their reasons are."""
    methods, places = {}, {}
    for text in texts:
        owner = None
        for line in text.split("\n"):
            owner = owner_of(line) or owner
            if line.startswith("}"):
                owner = None
            if owner and (found := re.match(r" {4,8}pub (?:const )?fn (\w+)", line)):
                methods.setdefault(owner, set()).add(found[1])
    shown = re.sub(r"#\[doc\(hidden\)\]\npub [^;{]*;", "", root)
    for found in re.findall(r"^pub use [\w:]+::(?:\{([^}]*)\}|(\w+));", shown, re.M):
        names = [re.sub(r".* as ", "", it).strip() for it in (found[0] or found[1]).split(",")]
        places |= {it: f"crate::{it}" for it in names if it[:1].isupper()}
    places |= {it: f"crate::{it}" for it in re.findall(r"^pub (?:struct|enum|trait|type) (\w+)", root, re.M)}
    for text in texts:
        for body in re.findall(r"^pub enum Refusal \{\n(.*?)^\}", text, re.M | re.S):
            places |= {it: f"crate::Refusal::{it}" for it in re.findall(r"^    (\w+)", body, re.M)}
    return methods, places


def linked(text, methods, places):
    """A file whose docstrings have links: one for each name that a docstring has, where it comes first. A parameter, and the
    thing itself, need none."""
    lines, owner, at = text.split("\n"), None, 0
    while at < len(lines):
        owner = owner_of(lines[at]) or owner
        if lines[at].startswith("}"):
            owner = None
        if not re.match(r" *///(?!/)", lines[at]):
            at += 1
            continue
        end = at
        while re.match(r" *///(?!/)", lines[end]):
            end += 1
        head = "\n".join(lines[end:end + 12])
        head = head[:re.search(r"[{;]\n|\{$|;$|,$|\Z", head).end()]
        found = re.search(r"\b(?:fn|struct|enum|trait|type|const) (\w+)", head)
        skipped = {owner, found and found[1], *re.findall(r"(\w+): ", head), *re.findall(r"\[`(\w+)`\]", "\n".join(lines[at:end]))}
        targets = dict(places)
        if owner and found and re.search(r"\bfn\b", head):
            targets |= {name: f"Self::{name}" for name in methods.get(owner, ())}
        is_code = False
        for i in range(at, end):
            if "```" in lines[i]:
                is_code = not is_code
            elif not is_code:
                def link(it):
                    if it[1] in skipped or it[1] not in targets:
                        return it[0]
                    skipped.add(it[1])
                    return f"[`{it[1]}`]({targets[it[1]]})"
                lines[i] = TICKED.sub(link, lines[i])
        at = end
    return "\n".join(lines)
