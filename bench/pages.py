"""A report has the lines of a page with all its tables. Of it this makes text in aligned columns, and parts of
a short page."""
import re, textwrap

WIDE = 110


def cells(line):
    return [cell.strip() for cell in line[1:-1].split("|")]


def table(report, heading=""):
    """The rows of cells of the first table, or of the first one under a heading."""
    at = next(at for at, line in enumerate(report) if not heading or line.lstrip("# ") == heading)
    while not report[at].startswith("|"):
        at += 1
    rows = []
    while at < len(report) and report[at].startswith("|"):
        rows.append(cells(report[at]))
        at += 1
    return [rows[0], *rows[2:]]


def lines_of(head, rows, words=1):
    """The lines of a table in a page; so many columns are of words."""
    yield f"| {' | '.join(head)} |"
    yield "|" + "---|" * words + "---:|" * (len(head) - words)
    for row in rows:
        yield f"| {' | '.join(row)} |"


def stacked(label, wide):
    """A label in lines of about this width."""
    parts = [part for part in re.split(r"(?<=/)| ", label) if part]
    lines = [""]
    for part in parts:
        gap = "" if not lines[-1] or lines[-1].endswith("/") else " "
        if lines[-1] and len(lines[-1] + gap + part) > wide:
            lines.append(part)
        else:
            lines[-1] += gap + part
    return lines


def aligned(rows):
    """A table as text: its labels one above the other, a `*` after what a page has in bold."""
    head, *rows = [[re.sub(r"\*\*(.*?)\*\*", r"\1*", cell).replace("`", "") for cell in row] for row in rows]
    columns = []
    for k, label in enumerate(head):
        found = [row[k] for row in rows]
        if any(cell.endswith("*") for cell in found):
            found = [cell if cell.endswith("*") else cell + " " for cell in found]
        label = stacked(label, max([9, *map(len, found)]))
        wide = max(map(len, label + found))
        # a column of words begins at the left
        put = str.ljust if k == 0 or any(re.match(r"(?!over )[a-z]", cell) for cell in found) else str.rjust
        columns.append(([put(line, wide) for line in label], [put(cell, wide) for cell in found], wide))
    high = max(len(label) for label, _, _ in columns)
    for row in zip(*([" " * wide] * (high - len(label)) + label + found for label, found, wide in columns)):
        yield "  ".join(row).rstrip()


def text_of(report):
    """A report as text."""
    lines, at = [], 0
    while at < len(report):
        line = report[at]
        if line.startswith("|"):
            end = at
            while end < len(report) and report[end].startswith("|"):
                end += 1
            lines += aligned([cells(row) for k, row in enumerate(report[at:end]) if k != 1])
            at = end
            continue
        if found := re.match(r"(#+) (.*)", line):
            lines += [found[2], ("=" if len(found[1]) == 1 else "-") * len(found[2])]
        else:
            inner = "  " if line.startswith("- ") else ""
            lines += textwrap.wrap(line, WIDE, subsequent_indent=inner, break_on_hyphens=False) or [""]
        at += 1
    return "\n".join(lines).strip() + "\n"


# the page of results, whose parts are of several reports
HEAD = ["# Results", "", "Speed beside the original and other allocators. [README.md](README.md) says how all is measured."]
PARTS = ("## As a user builds it", "## Special builds", "## Beside other allocators", "## What `room_cost` takes")


def put(folder, part, page, name, report):
    """Writes one part of RESULTS.md, and leaves the others; and the whole report, into NAME.txt."""
    path = folder / "RESULTS.md"
    text = path.read_text() if path.exists() else ""
    bodies = [found[1] if (found := re.search(rf"^{heading}\n\n(.*?)(?=^## |\Z)", text, re.M | re.S)) else "" for heading in PARTS]
    bodies[part] = "\n".join(page)
    path.write_text("\n\n".join(["\n".join(HEAD), *(f"{heading}\n\n{body.strip()}" for heading, body in zip(PARTS, bodies))]) + "\n")
    (folder / f"{name}.txt").write_text(text_of(report))


def write(folder, name, page, report):
    """Writes the page NAME.md, and the whole report beside it."""
    (folder / f"{name.upper()}.md").write_text("\n".join(page).strip() + "\n")
    (folder / f"{name}.txt").write_text(text_of(report))
