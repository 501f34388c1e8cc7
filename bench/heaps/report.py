"""Prints the rows of the file $1, which `run` measured, and writes them into heaps.txt in the folder $2."""
import pathlib, sys

HERE = pathlib.Path(sys.argv[2]).resolve()
sys.path.insert(0, str(HERE.parent))
import pages

PAGES = {"16777216": "16 MiB", "262144": "256 KiB"}
WHAT = ["pages", "larger", "MiB", "made", "ns a call"]


def rows(found, page):
    """A row for each program, with ours and VMA's of each kind."""
    for size, name, *numbers in found:
        if size == page:
            both = [[*numbers[k::5][:2]] for k in range(5)]
            both[2] = [f"{int(number) / 2**20:.2f}" for number in both[2]]
            yield [name, *sum(both, [])]


def report(found):
    head = ["", *(words for what in WHAT for words in (f"{what}, ours", "VMA"))]
    lines = ["# Many heaps, beside pages of VMA by hand", "",
             "The recorded programs, on `Heaps` and on a list of `VmaVirtualBlock`s whose first page that "
             "grants takes a request, with a block of its own for what is larger than a page. One empty page is "
             "kept, on both. Peaks are of pages, of larger heaps, and of the MiB of both. A request or release "
             "takes the fastest of some runs; the construction of heaps is in it."]
    for page, name in PAGES.items():
        lines += ["", f"## Pages of {name}", "", *pages.lines_of(head, rows(found, page))]
    return lines


def main():
    lines = report([line.split() for line in pathlib.Path(sys.argv[1]).read_text().splitlines()])
    text = pages.text_of(lines)
    (HERE / "heaps.txt").write_text(text)
    print(text)


if __name__ == "__main__":
    main()
