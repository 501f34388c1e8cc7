"""What bench/run measures with the programs in the folder $1, in the phase $2, which writes $1/$2.json:
- check: whether the answers of all sides are equal, and ranges apart; the refusals; which peers take too long.
- times: all times, one program after the other.
- counts: all that does not depend on what else the machine does, with all processors.
"""
import hashlib, json, os, pathlib, re, resource, signal, subprocess, sys, tempfile, time
from concurrent.futures import ThreadPoolExecutor

OUT = sys.argv[1]
HERE = pathlib.Path(__file__).resolve().parent
# the program for times, the one for counts, and that with other call sites
MEASURE, PLAIN, SITES = f"{OUT}/measure", f"{OUT}/measure_plain", f"{OUT}/measure_sites"
# the sides, and the prefix of their measured functions
SIDES = {"original": "original", "ours": "offset", "erased": "erased", "c": "tuned"}
# the sides with tables of their own, the prefix of each, and the side that it is compared with
BESIDE = {"by field": ("by_field", "ours"), "guarded": ("guarded", "erased"), "ours guarded": ("offset_guarded", "ours")}
PREFIXES = {**SIDES, **{side: prefix for side, (prefix, _) in BESIDE.items()}}
# the sides that are built of each peer, and those beside which they are measured
PARTS = {"vma": ["vma", "vma_min"], "u_mm": ["u_mm"], "util_vma": ["util_vma"]}
PEERS_BESIDE = ["original", "ours"]
# the seconds that a run of a peer may take
CAP = 5
# in how many rounds the sides are timed
ROUNDS = int(os.environ.get("ROUNDS", 9))
# the ways to compact a space, with the prefix `compacting` of their measured functions, and the live ranges
WAYS, COMPACTED = ("compact", "reset", "free"), (1_000, 60_000)
# callgrind counts each byte that a `rep stosb` of memset writes as an instruction, so memset must use vectors
COUNTED = {**os.environ, "GLIBC_TUNABLES": "glibc.cpu.x86_rep_stosb_threshold=4000000000"}
# each table has pages of its own, which nothing has touched before
APART = {**os.environ, "GLIBC_TUNABLES": "glibc.malloc.mmap_threshold=131072"}
# tables are in huge pages, where the system allows it
HUGE = {**os.environ, "GLIBC_TUNABLES": "glibc.malloc.hugetlb=1"}
# what malloc holds is counted
HEAP = {**os.environ, "LD_PRELOAD": f"{OUT}/heap.so"}
# the data cache that is simulated: its level, its bytes, its ways, and the bytes of a line
LEVEL, CACHE = 1, "32768,8,64"
# the workload whose resident memory is measured, and the node limits with which it is
RESIDENT, LIMITS = "random, 1k live", (131_072, 10_000_000)
# the workloads for the bytes of a live range, by their number of live ranges
LIVE = {1_000: "random, 1k live", 16_000: "random, 16k live", 60_000: "random, 60k live"}


def lines(*words, program=MEASURE, env=None):
    out = subprocess.run([program, *words], check=True, capture_output=True, text=True, env=env).stdout
    return [line.split("\t") for line in out.splitlines()]


class Work:
    """A workload of the program."""

    def __init__(self, name, nodes, _space, count, function, kind):
        self.name, self.nodes, self.count, self.function, self.kind = name, int(nodes), int(count), function, kind
        self.growth = name.startswith("growth")
        # with times of other builds, and other call sites
        self.shown = kind == "steps" and not self.growth
        # peers have no reset, and no tables to construct
        self.peers = kind in ("steps", "used") and "reset" not in name
        self.huge = name.startswith("random") and (self.nodes >= 262_144 or name == "random, 60k live")


def works(part=""):
    """The workloads with this text in their names."""
    return [work for work in (Work(*row) for row in lines("list")) if part in work.name]


def peers():
    """The version of each peer that is linked, and the sides that it has."""
    with open(f"{OUT}/peers.txt") as file:
        versions = dict(line.rstrip("\n").split("\t") for line in file)
    return versions, [part for name in versions for part in PARTS[name]]


def traces():
    return sorted(path.stem for path in (HERE / "traces").glob("*.script"))


def in_parallel(jobs, kept=None):
    """What each job returns, by its key. They begin in this order. What one returned is added to the file `kept`, if one is
    given; a job that is there is not begun again."""
    known = {}
    if kept and kept.exists():
        known = {tuple(key): value for key, value in map(json.loads, kept.read_text().splitlines())}

    def keep(key, job):
        if key in known:
            return known[key]
        found = job[0](*job[1:])
        if kept:
            with open(kept, "a") as file:
                file.write(json.dumps([key, found]) + "\n")
        return found

    with ThreadPoolExecutor(os.cpu_count()) as pool:
        begun = {key: pool.submit(keep, key, job) for key, job in jobs.items()}
        try:
            return {key: job.result() for key, job in begun.items()}
        except BaseException:
            pool.shutdown(wait=False, cancel_futures=True)
            raise


# Checks


def refusals(name, sides, seconds=0):
    """The number of requests that these sides refuse, after a check that their answers are equal and no live ranges
    overlap. None where a run takes more than these seconds; 0 means no bound."""
    command = [MEASURE, "check", str(seconds), name, *sides]
    ended = subprocess.run(command, capture_output=True, text=True)
    if ended.returncode == -signal.SIGPROF:
        return None
    assert ended.returncode == 0, ended.stderr
    return int(ended.stdout)


def check(part="", sides=()):
    """For each workload the refusals of ours, of which all sides but the peers have the same answers, and those of these
    peers."""
    found = works(part)
    jobs = {(work.name, side): (refusals, work.name, [side], CAP) for work in found if work.peers for side in sides}
    jobs.update({(work.name, "ours"): (refusals, work.name, PREFIXES) for work in found})
    refused = in_parallel(jobs)
    return {work.name: {side: refused[work.name, side] for side in ("ours", *sides) if (work.name, side) in refused} for work in found}


# Times


def timed(name, program, sides, env=None):
    """Of each side the nanoseconds of a step, those of the processor, those with the construction, and those of each
    round."""
    rows = lines("time", name, *sides, program=program, env=env)
    return {side: [float(x) for x in row] for side, row in zip(sides, rows)}


def processors():
    """The seconds of all processors: those that were spent, those that the host took away, and those spent for this
    program and what it has run."""
    with open("/proc/stat") as file:
        user, nice, system, _idle, _waiting, hard, soft, steal = (int(x) / os.sysconf("SC_CLK_TCK") for x in file.readline().split()[1:9])
    own = sum(sum(resource.getrusage(who)[:2]) for who in (resource.RUSAGE_SELF, resource.RUSAGE_CHILDREN))
    return [user + nice + system + hard + soft, steal, own]


def times(part="", refused=None):
    """The times of each workload: of all sides, of those without aligned branches and of those with huge pages, and
    of the peers that do not take too long."""
    start, before = time.time(), processors()
    found = {}
    for work in works(part):
        began = time.time()
        # a single step takes too short a time
        one = found[work.name] = {} if work.kind == "last" else {"sides": timed(work.name, MEASURE, [*PREFIXES])}
        ended = [side for side, count in (refused[work.name].items() if refused else ()) if side != "ours" and count is not None]
        if ended:
            one["peers"] = timed(work.name, MEASURE, [*PEERS_BESIDE, *ended])
        if work.shown:
            one["plain"] = timed(work.name, PLAIN, [*SIDES])
        if work.huge:
            one["huge"] = timed(work.name, MEASURE, [*SIDES], HUGE)
        print(f"{work.name}: {time.time() - began:.1f} s", flush=True)
    threads = [[way, float(ns)] for way, ns in lines("threads")] if not part or part in "threads" else []
    compacting = {str(live): [float(row[0]) for row in lines("compacting", str(live))] for live in COMPACTED} if not part or part in "compact" else {}
    spent, steal, own = (b - a for a, b in zip(before, processors()))
    seconds = time.time() - start
    with open("/proc/cpuinfo") as file:
        processor = re.search(r"^model name\s*: (.*)", file.read(), re.M)
    return {"work": found, "threads": threads, "compacting": compacting, "rounds": ROUNDS, "seconds": seconds, "others": (spent - own) / seconds,
            "steal": steal / seconds, "processor": f"{processor[1] if processor else 'unknown'}, {os.cpu_count()} of them"}


# Counts


def counted(function, *words, program=PLAIN):
    """The instructions and the cache misses of the program with these words: inside the measured function, and in all."""
    with tempfile.NamedTemporaryFile() as file:
        command = ["valgrind", "--tool=callgrind", "--cache-sim=yes", f"--D{LEVEL}={CACHE}", "--callgrind-out-file=" + file.name,
                   program, *words]
        subprocess.run(command, check=True, capture_output=True, env=COUNTED)
        report = subprocess.run(["callgrind_annotate", "--inclusive=yes", "--threshold=100", "--show=Ir,D1mr,D1mw", file.name],
                                check=True, capture_output=True, text=True).stdout
    count = r" *([\d,]+)(?: \([ \d.]+%\))? +"
    rows = re.findall(rf"^{count * 3}(?:\S*:(\w+)(?: \[.*)?|(PROGRAM TOTALS))$", report, re.M)
    found = {}
    for *counts, called, total in reversed(rows):
        instructions, read, written = (int(count.replace(",", "")) for count in counts)
        found[called or total] = instructions, read + written
    return found[function], found["PROGRAM TOTALS"]


def a_step(work, side, program=PLAIN):
    """The instructions and the cache misses of a step, without the construction of the tables, each computed in two ways,
    which have to agree."""
    function = f"{PREFIXES[side]}_{work.function}"
    runs = zip(*(counted(function, "play", work.name, side, what, program=program) for what in ("all", "none")))
    inside, whole = ([a - b for a, b in zip(*both)] for both in runs)
    # they differ by what is loaded at a first call, and by the loop that constructs tables
    for one, other, most in zip(inside, whole, (50_000, 500)):
        assert abs(other - one) < most + other / 500, f"{work.name}, {side}: {inside} inside the calls, {whole} in all"
    return [count / work.count for count in inside]


def heap_bytes(name, side, *nodes):
    """The bytes of a side after construction, and the most that a run adds, counted in two ways that have to agree."""
    out = subprocess.run([MEASURE, "heap", name, side, *map(str, nodes)], env=HEAP, check=True, capture_output=True, text=True).stdout
    # the last may be negative, where a run returns what was held before
    made, made_again, more, more_again = (int(x) - (int(x) >> 63 << 64) for x in out.split())
    for one, other in ((made, made_again), (more, more_again)):
        # a block with its own pages has a longer header
        assert abs(one - other) <= 4096 + one / 100, f"{name}, {side}: {one} bytes, or {other}"
    return made, more


def resident(side, limit):
    """The bytes that become resident with a node limit. Whatever a run touches stays resident until its end."""
    touched, most = map(int, lines("resident", RESIDENT, side, str(limit), env=APART)[0])
    # the system may miss up to 32 pages of each processor
    assert abs(touched - most) < 131_072 * (os.cpu_count() + 1), f"{side}: {touched} bytes touched, {most} resident"
    return touched


def least_nodes(name):
    """The smallest node limit with which nothing is refused."""
    return int(lines("nodes", name)[0][0])


def compacted(live, way):
    return counted(f"compacting_{way}", "compacting", str(live), way)[0][0] / live


def counts(part="", refused=None, kept=None):
    found = works(part)
    jobs = {}
    for work in sorted(found, key=lambda work: -work.count):
        for side in PREFIXES:
            jobs["steps", work.name, side] = a_step, work, side
        for side in ("original", "erased") if work.shown else ():
            jobs["sites", work.name, side] = a_step, work, side, SITES
        for side in ("erased", "guarded") if work.kind == "steps" else ():
            jobs["bytes", work.name, side] = heap_bytes, work.name, side
    if not part or part in RESIDENT:
        jobs.update({("resident", str(limit), side): (resident, side, limit) for limit in LIMITS for side in SIDES})
        jobs["nodes", RESIDENT, "least"] = least_nodes, RESIDENT
    if not part or part in "compact":
        jobs.update({("compacting", str(live), way): (compacted, live, way) for live in COMPACTED for way in WAYS})
    if refused:
        sides = [*PEERS_BESIDE, *peers()[1]]
        nodes = in_parallel({name: (least_nodes, name) for name in LIVE.values()})
        for name in LIVE.values():
            jobs["nodes", name, "least"] = int, nodes[name]
            for side in sides:
                if refused[name].get(side, 0) is not None:
                    jobs["heap", name, side] = heap_bytes, name, side
            for side in PEERS_BESIDE:
                jobs["tight", name, side] = heap_bytes, name, side, nodes[name]
        jobs.update({("recorded", name, side): (heap_bytes, name, side) for name in traces() for side in sides})
    counted = {}
    # the short ones first
    jobs = dict(sorted(jobs.items(), key=lambda job: job[0][0] in ("steps", "sites")))
    for (what, of, by), count in in_parallel(jobs, kept).items():
        counted.setdefault(what, {}).setdefault(of, {})[by] = count
    return counted


# The files of the phases


def build():
    """A checksum of all that is measured."""
    found = hashlib.sha256()
    for path in (MEASURE, PLAIN, SITES, f"{OUT}/heap.so", *(HERE / f"traces/{name}.script" for name in traces())):
        found.update(hashlib.sha256(pathlib.Path(path).read_bytes()).digest())
    return found.hexdigest()


def saved(phase):
    """What a phase has written, of this build."""
    path = pathlib.Path(OUT, f"{phase}.json")
    if not path.exists():
        sys.exit(f"first run bench/run --{phase}")
    found = json.loads(path.read_text())
    if found["build"] != build():
        sys.exit(f"{path.name} is of another build: run bench/run --{phase}")
    return found["found"]


def main():
    phase, path = sys.argv[2], pathlib.Path(OUT, f"{sys.argv[2]}.json")
    path.unlink(missing_ok=True)
    began, of = time.time(), build()
    if phase == "check":
        found = check(sides=peers()[1])
    elif phase == "times":
        found = times(refused=saved("check"))
    else:
        # what a run that was ended has counted of this build is not counted again
        kept = pathlib.Path(OUT, f"counts_{of}.lines")
        found = counts(refused=saved("check") if peers()[1] else None, kept=kept)
    assert build() == of, "the programs have changed meanwhile"
    path.write_text(json.dumps({"build": of, "found": found}))
    print(f"{phase}: {time.time() - began:.0f} s")


if __name__ == "__main__":
    main()
