"""Writes what bench/frames counted in the folder $1 into frames.txt in the folder $2, and its chief table into CORPUS.md there."""
import pathlib, sys
import pages

OUT, HERE = map(pathlib.Path, sys.argv[1:3])
HEADING = "## Over frames"
WAYS = ["none", "slide", "relocate", "both"]


class Trace:
    def __init__(self, path):
        self.name, self.least, self.moved = path.stem, {}, {}
        for words in (line.split("\t") for line in path.read_text().splitlines()):
            match words:
                case ["peak", number]:
                    self.peak = int(number)
                case ["least", share, way, space]:
                    self.least[int(share), way] = int(space)
                case ["moved", share, way, *numbers]:
                    self.moved[int(share), way] = [int(number) for number in numbers]

    def over(self, share, way):
        space = self.least[share, way]
        return f"{100 * (space / self.peak - 1):.2f}" if space else "over 15"

    def cells(self, share):
        return [*(self.over(share, way) for way in WAYS),
                *(f"{self.moved[share, way][0] / self.peak:.2f}" for way in WAYS[1:]),
                *(f"{self.moved[share, way][2] / 10:.0f}" for way in WAYS)]


def table(traces, share):
    head = ["", *(f"least, {way}" for way in WAYS), *(f"moved, {way}" for way in WAYS[1:]), *(f"largest, {way}" for way in WAYS)]
    return [*pages.lines_of(head, [[trace.name, *trace.cells(share)] for trace in traces]), ""]


traces = [Trace(path) for path in sorted(OUT.glob("*.txt"))]
assert [t.name for t in traces] == sorted(path.stem for path in (HERE / "traces").glob("*.script"))
WHAT = [
    "Each 50 calls are a frame, at whose end ranges may move: at most 64, of one {share} of the peak together, but one in any case. "
    "*Slide* is `compact_within` by steps of one unit, on from where it stopped; *relocate* takes the last live range again and again, "
    "at any multiple, as long as there is a place before it, and frees the old one at once; *both* slides where that finds none. "
    "*Least*: the smallest of 3,000 spaces, up to 15% above the peak, in which nothing is refused, in percent above it. In a space of 5% above it: *moved*, in peaks, and *largest*, the largest free block in percent of all free units, on "
    "average over frames.", ""]
report = ["# Recorded programs whose ranges move over frames", "", *WHAT]
for share in sorted({share for share, _ in traces[0].least}):
    report += [f"## {share}", "", *table(traces, share)]
report[2] = report[2].replace("one {share}", "a 64th or a 16th")
(HERE / "frames.txt").write_text(pages.text_of([line.replace("## 16", "## A 16th of the peak").replace("## 64", "## A 64th of the peak") for line in report]))
page = (HERE / "CORPUS.md").read_text().partition(HEADING)[0].strip()
chief = [[trace.name, *trace.cells(16)[-len(WAYS):]] for trace in traces]
part = [HEADING, "",
        "After each 50 calls ranges may move: at most 64, of a 16th of the peak together. *Slide* is `compact_within` by single units; "
        "*relocate* takes the last live range again and again; *both* slides where that finds no place. In a space of 5% above the "
        "peak: the largest free block in percent of all free units, on average. [frames.txt](frames.txt) has what is moved and "
        "the least spaces.", "", *pages.lines_of(["", *WAYS], chief), ""]
(HERE / "CORPUS.md").write_text("\n".join([page, "", *part]).strip() + "\n")
print((HERE / "frames.txt").read_text())
