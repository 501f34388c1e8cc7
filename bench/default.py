"""What bench/default measures with the programs in the folder $1, in the phase $2: times and counts write $1/$2.json;
report prints the tables, and writes them into default.txt and the first part of RESULTS.md."""
import hashlib, json, os, pathlib, subprocess, sys, tempfile, time
from concurrent.futures import ThreadPoolExecutor
import pages
from measures import processors

OUT = pathlib.Path(sys.argv[1])
HERE = pathlib.Path(__file__).resolve().parent
SIDES, PROFILES, SITES = ("original", "ours", "tickets"), ("release", "lto"), ("one", "two", "moved")
BUILDS = [(profile, sites) for profile in PROFILES for sites in SITES]
# the programs, in the order in which they take turns
PROGRAMS = [(side, *build) for build in BUILDS for side in SIDES]
# the turns, and the fewest; no further one is begun for a workload after so many seconds
TURNS, LEAST, ENOUGH = int(os.environ.get("TURNS", 30)), 5, 45
# the most steps of a recorded program that are counted
COUNTED = 200_000
# the names of the workloads that are not recorded programs, and the most of the original's time that each may take
RANDOM = {"random, 1k live": (0.70, "random, 1,000 live"), "random, 16k live": (0.70, "random, 16,000 live"), "random, 60k live": (0.70, "random, 60,000 live"),
          "growth, 1048576 nodes": (0.85, "random, 262,144 live"), "random, a million live": (0.85, "random, a million live")}
RECORDED = 0.65
AIMS = {"recorded programs": RECORDED, "random, to 60,000 live": 0.70, "random, more": 0.85}
# of tickets in parts of handles
TICKETS = {"recorded programs": 1.10, "random, to 60,000 live": 1.35, "random, more": 1.35}
# the random workload that is counted: one is as the others, and larger tables take long
ALSO = "random, 60k live"
# memset by vectors: callgrind counts each byte of `rep stosb`
AROUND = {**os.environ, "GLIBC_TUNABLES": "glibc.cpu.x86_rep_stosb_threshold=4000000000"}


def path(side, profile, sites):
    return str(OUT / f"{side}-{profile}-{sites}")


def printed(program, *words):
    return subprocess.run([path(*program), *words], check=True, capture_output=True, text=True).stdout


def works():
    """The workloads, and the number of steps of each."""
    rows = (line.split("\t") for line in printed(PROGRAMS[0], "list").splitlines())
    return {name: int(count) for name, count in rows}


def most(name):
    return RANDOM.get(name, (RECORDED,))[0]


def times():
    """Of each workload and program the nanoseconds of a step in the fastest run."""
    began, before, found = time.time(), processors(), {}
    for name, count in works().items():
        fastest, sums = {program: [float("inf")] * 2 for program in PROGRAMS}, set()
        start = time.time()
        for turn in range(TURNS):
            if turn >= LEAST and time.time() - start > ENOUGH:
                break
            for program in PROGRAMS:
                *taken, checksum = printed(program, "time", name, "1" if count > 2_000_000 else "2").split()
                fastest[program] = [min(a, float(b)) for a, b in zip(fastest[program], taken)]
                sums.add(checksum)
        assert len(sums) == 1, f"{name}: the answers differ"
        found[name] = {" ".join(program): (all - none) / count for program, (all, none) in fastest.items()}
        print(name, *(f"{ns:.1f}" for ns in found[name].values()), file=sys.stderr)
    with open("/proc/cpuinfo") as file:
        processor = next((line.split(": ")[1].strip() for line in file if line.startswith("model name")), "unknown")
    seconds = time.time() - began
    spent, _steal, own = (b - a for a, b in zip(before, processors()))
    return {"work": found, "minutes": seconds / 60, "others": (spent - own) / seconds, "processor": processor,
            "rustc": subprocess.run(["rustc", "--version"], check=True, capture_output=True, text=True).stdout.strip().split(" (")[0]}


def counted(program, name, count):
    """The instructions and the jumps of a run, and its steps."""
    with tempfile.NamedTemporaryFile() as file:
        command = ["valgrind", "--tool=callgrind", "--branch-sim=yes", f"--callgrind-out-file={file.name}", path(*program), "play", name, str(count)]
        steps = subprocess.run(command, check=True, capture_output=True, text=True, env=AROUND).stdout.split()[0]
        lines = dict(line.split(": ", 1) for line in pathlib.Path(file.name).read_text().splitlines() if line.startswith(("events:", "totals:")))
    events = dict(zip(lines["events"].split(), map(int, lines["totals"].split())))
    return [events["Ir"], events["Bc"], int(steps)]


def counts():
    """Of each workload and program the instructions of a step, and the jumps that depend on something."""
    with ThreadPoolExecutor(os.cpu_count()) as pool:
        jobs = {(name, program): [pool.submit(counted, program, name, most) for most in (COUNTED if name not in RANDOM else count, 0)]
                for name, count in works().items() if name not in RANDOM or name == ALSO for program in PROGRAMS}
        found = {}
        for (name, program), both in jobs.items():
            (*all, steps), (*none, _) = (job.result() for job in both)
            found.setdefault(name, {})[" ".join(program)] = [(a - b) / steps for a, b in zip(all, none)]
    return found


def label(name):
    return RANDOM.get(name, (0, name))[1]


def ratio(row, build, at=None, sides=("ours", "original")):
    """A side in parts of another: ours in parts of the original."""
    one, other = (row[" ".join((side, *build))] for side in sides)
    return one / other if at is None else one[at] / other[at]


def aims_of(work, limits, sides):
    """For each kind of workload and each profile the aim, the least and the most, and how many are above the aim."""
    for what, limit in limits.items():
        for profile in PROFILES:
            values = [ratio(row, build, None, sides) for name, row in work.items() if kind(name) == what for build in BUILDS if build[0] == profile]
            above = sum(round(value, 2) > limit for value in values)
            yield [f"{what}, {profile}", f"{limit:.2f}", cell(min(values), limit), cell(max(values), limit), f"{above} of {len(values)}"]


def cell(value, limit=float("inf")):
    shown = f"{value:.2f}"
    return f"**{shown}**" if float(shown) > limit else shown


def kind(name):
    return "recorded programs" if name not in RANDOM else "random, to 60,000 live" if most(name) == RANDOM[ALSO][0] else "random, more"


HEADS = [f"{profile}: {sites}" for profile, sites in BUILDS]


def table(head, rows):
    yield f"| {' | '.join(head)} |"
    yield "|---|" + "---:|" * (len(head) - 1)
    for row in rows:
        yield f"| {' | '.join(row)} |"


def report():
    timed, counted = saved("times"), saved("counts")
    work = timed["work"]
    ratios = [[label(name), *(cell(ratio(row, build), most(name)) for build in BUILDS)] for name, row in work.items()]
    ns = [[label(name), *(f"{row[' '.join(program)]:.1f}" for program in PROGRAMS)] for name, row in work.items()]
    parts = [[label(name), *(cell(ratio(row, build, 0)) for build in BUILDS)] for name, row in counted.items()]
    number = [[label(name), *(f"{row[' '.join(program)][0]:.1f}" for program in PROGRAMS)] for name, row in counted.items()]
    jumps = [[label(name), *(f"{row[' '.join(program)][1]:.1f}" for program in PROGRAMS)] for name, row in counted.items()]
    aims = list(aims_of(work, AIMS, ("ours", "original")))
    beside = ("tickets", "ours")
    ticket_aims = list(aims_of(work, TICKETS, beside))
    tickets = [[label(name), *(cell(ratio(row, build, None, beside), TICKETS[kind(name)]) for build in BUILDS)] for name, row in work.items()]
    ticket_parts = [[label(name), *(cell(ratio(row, build, 0, beside)) for build in BUILDS)] for name, row in counted.items()]
    when = (f"All times took {timed['minutes']:.0f} minutes ({timed['processor']}, {timed['rustc']}), by turns, and the fastest run counts. "
            f"Meanwhile other programs took {timed['others']:.2f} of a processor. All answers were equal.")
    explained = ("*release* is `cargo build --release` with no flag, *lto* has `lto = true` and `codegen-units = 1`; ours is the crate for cargo, with "
                 "handles, and *tickets* that with tickets. Each program has one side, and calls each function from one place or from two; *moved* has "
                 "one call site and the code at other places, since a jump across 32 bytes takes longer here, and each program has others.")
    shown = ["# As a user builds it", "", explained, "", when, "",
             "## Aims", "", "Time, ours/original. Marked by *: above the aim.", "", *table(["", "aim: at most", "the least", "the most", "above the aim"], aims), "",
             "## Time, ours/original", "", *table(["workload", *HEADS], ratios), "",
             "## Tickets", "", "Time, tickets/handles. Marked by *: above the aim.", "", *table(["", "aim: at most", "the least", "the most", "above the aim"], ticket_aims), "",
             *table(["workload", *HEADS], tickets), "", "Instructions, tickets/handles.", "", *table(["workload", *HEADS], ticket_parts), "",
             "## Nanoseconds a step", "", *table(["workload", *(f"{profile}, {sites}: {side}" for side, profile, sites in PROGRAMS)], ns), "",
             "## Instructions, ours/original", "", *table(["workload", *HEADS], parts), "",
             "## Instructions a step", "", *table(["workload", *(f"{profile}, {sites}: {side}" for side, profile, sites in PROGRAMS)], number), "",
             "## Conditional jumps a step", "", *table(["workload", *(f"{profile}, {sites}: {side}" for side, profile, sites in PROGRAMS)], jumps)]
    head = ["aim: at most", "the least", "the most", "above the aim"]
    pages.put(HERE, 0, [explained + " " + when + " [default.txt](default.txt) has each workload.", "",
                        *table(["time, ours/original", *head], aims), "",
                        *table(["time, tickets/handles", *head], ticket_aims)], "default", shown)
    print(pages.text_of(shown))


def build():
    """A checksum of the programs."""
    return hashlib.sha256(b"".join(pathlib.Path(path(*program)).read_bytes() for program in PROGRAMS)).hexdigest()


def saved(phase):
    """What a phase has written, of this build."""
    file = OUT / f"{phase}.json"
    found = json.loads(file.read_text()) if file.exists() else {"build": None}
    if found["build"] != build():
        sys.exit(f"first run bench/default --{phase}")
    return found["found"]


def main():
    phase = sys.argv[2]
    if phase == "report":
        return report()
    found = times() if phase == "times" else counts()
    (OUT / f"{phase}.json").write_text(json.dumps({"build": build(), "found": found}))


main()
