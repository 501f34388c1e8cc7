"""Prints what `run` found. Status 1 where ours does not pass a test that VMA's own class passes.
    report.py OUT TURNS"""
import re
import statistics
import sys

out, turns = sys.argv[1], int(sys.argv[2])
sides = ("own", "ours")


def read(name):
    with open(f"{out}/{name}") as file:
        return file.read().splitlines()


def row(name, values):
    print((f"    {name:<44}" + "".join(f"{value:>12}" for value in values)).rstrip())


results = {side: dict(reversed(line.split()) for line in read(side + ".txt")) for side in sides}
row("", ("VMA's own", "ours"))
for word, name in (("passed", "tests passed"), ("failed", "failed"), ("left", "not for this driver")):
    row(name, [sum(one == word for one in results[side].values()) for side in sides])
failed = {side: sorted(name for name, one in results[side].items() if one == "failed") for side in sides}

# the times of a row of this report, turn by turn: as many a turn as rows of the benchmark are in it
form = re.compile(r" *Algorithm=(\w+) (Empty|Not empty) Allocation=(\w+) FreeOrder=\w+: allocations (\S+) s, free (\S+) s")
times = {side: {} for side in sides}
for side in sides:
    for turn in range(turns):
        seen = {}
        for line in read(f"work/{side}-{turn}.times"):
            found = form.fullmatch(line)
            words = line.split(",")
            if found:
                algorithm, filled, strategy, *numbers = found.groups()
                name, phases = f"device memory, {filled.lower()}: ", ("allocate", "free")
            elif len(words) == 6:
                align, algorithm, strategy, *numbers = words
                name, phases = f"virtual block, aligned to {align}: ", ("allocate", "both at random", "free")
            else:
                continue
            if algorithm != "TLSF":  # the same on both sides
                name, strategy, phases = "the linear algorithm, not replaced", "Default", [""] * len(phases)
            for what, number in zip(phases, numbers):
                seen.setdefault((name + what, strategy), []).append(float(number))
        for key, found in seen.items():
            times[side].setdefault(key, []).extend(found)
strategies = ("MIN_MEMORY", "Default", "MIN_TIME")
print()
row("time of ours / VMA's own", [name.lower() for name in strategies])
for name in sorted(dict.fromkeys(name for name, _ in times["own"]), key=lambda name: name.startswith("the linear")):
    pairs = [zip(times["ours"].get((name, strategy), ()), times["own"].get((name, strategy), ())) for strategy in strategies]
    ratios = [[ours / own for ours, own in pair] for pair in pairs]
    row(name, [f"{statistics.median(found):.1f}" if found else "" for found in ratios])
print()
row("bytes a live range", ("VMA's own", "ours"))
memory = [read(f"work/{side}.memory") for side in sides]
for at, count in enumerate((10000, 100000, 1000000)):
    row(f"{count} live ranges", [round(int(side[at]) / count) for side in memory])
print()
print("failed on both sides:", *(name for name in failed["own"] if name in failed["ours"]))
worse = [name for name in failed["ours"] if name not in failed["own"]]
worse += [name for name in results["own"] if name not in results["ours"]]
if worse:
    sys.exit("only VMA's own class passes: " + " ".join(worse))
