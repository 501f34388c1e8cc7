"""Draws, as SVG, the frames around the peak of both parts: python3 picture.py FILE, one that `heap` wrote"""
import sys

FROM, TO, WIDE, HIGH, MOST = 640, 860, 2, 200, 96_000_000  # frames, pixels a frame, pixels, bytes

STYLE = """text{font:14px system-ui,sans-serif;fill:#1f2328}.s{font-size:12px;fill:#57606a}.back{fill:#fff}
.live{fill:#cfe0f7}.end{stroke:#2f5fd0;fill:none;stroke-width:1.5}.space{stroke:#57606a;fill:none}
.moved{fill:#c2571a}
@media (prefers-color-scheme:dark){text{fill:#e6edf3}.s{fill:#9aa4ae}.back{fill:#0d1117}.live{fill:#1d3a63}
.end{stroke:#6ea0ff}.space{stroke:#8b949e}.moved{fill:#f0925a}}"""


def steps(rows, column, bottom):
    """A line through a column of the rows, one step a frame where it changes."""
    path, last = "", None
    for i, row in enumerate(rows):
        height = bottom - row[column] * HIGH // MOST
        if height != last:
            path += f"M0 {height}" if last is None else f"H{i * WIDE}V{height}"
        last = height
    return path + f"H{len(rows) * WIDE}"


def panel(title, note, rows, left):
    bottom = 60 + HIGH
    yield f"<g transform='translate({left} 0)'><text y='24'>{title}</text>"
    yield f"<text class='s' y='42'>{note}</text>"
    yield f"<path class='live' d='{steps(rows, 0, bottom)}V{bottom}H0z'/>"
    yield f"<path class='space' d='{steps(rows, 2, bottom)}'/>"
    yield f"<path class='end' d='{steps(rows, 1, bottom)}'/>"
    for i, row in enumerate(rows[1:], 1):
        copied = row[3] - rows[i - 1][3]
        if copied:
            height = max(1, copied * 64 // (10 << 20))
            y = bottom + 70 - height
            yield f"<rect class='moved' x='{i * WIDE}' y='{y}' width='{WIDE}' height='{height}'/>"
    for frame in (700, 800):
        x = (frame - FROM) * WIDE
        yield f"<text class='s' x='{x}' y='{bottom + 86}' text-anchor='middle'>{frame}</text>"
    yield f"<text class='s' y='{bottom + 86}'>frame</text></g>"


def main():
    parts = []
    for line in open(sys.argv[1]):
        numbers = line.split()
        if numbers[0] == "buffer":
            parts.append([])
        else:
            parts[-1].append([int(n) for n in numbers])
    most = max(row[3] - before[3] for rows in parts for before, row in zip(rows, rows[1:]))
    wide = (TO - FROM) * WIDE
    width, height = 2 * wide + 60, 60 + HIGH + 112
    print(f"<svg xmlns='http://www.w3.org/2000/svg' viewBox='0 0 {width} {height}' width='{width}'"
          f" height='{height}' role='img' aria-label='Live bytes, the end of the last range, the space, and"
          " bytes copied, a frame'>")
    print(f"<style>{STYLE}</style><rect class='back' width='{width}' height='{height}'/>")
    titles = ("At the peak: room is made", "With slack: the end is emptied and taken off")
    for i, (title, rows) in enumerate(zip(titles, parts)):
        copied = rows[TO][3] - rows[FROM - 1][3]
        note = f"{copied / (1 << 20):.1f} MiB copied"
        print("\n".join(panel(title, note, rows[FROM - 1:TO], 20 + i * (wide + 20))))
    print(f"<text class='s' x='20' y='{height - 10}'>filled: live bytes; blue: where the last live range"
          " ends; grey: bytes of the space; orange: bytes copied in a frame, at most"
          f" {most / (1 << 20):.1f} MiB</text></svg>")


main()
