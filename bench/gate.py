#!/usr/bin/env python3
"""Processor minutes of the gate by crate, as a table, and its longest chain: bench/gate.py [WORD..], by default of `rt ci --anew`, which proves
all from nothing. Looks every two seconds at the processes that the gate started; what ends in between is counted up to the last look. What the gate
says goes to out/gate.log."""
import collections, os, re, subprocess, sys, threading, time

TOP = os.path.dirname(os.path.dirname(os.path.abspath(__file__)))
WORDS = sys.argv[1:] or ["rt", "ci", "--anew"]
PHASES = ("proof", "tests", "edits")


def processes():
    """Of each process its parent, the seconds that it took, and its words."""
    found = {}
    for line in subprocess.run(["ps", "-eo", "pid=,ppid=,cputimes=,args="], capture_output=True, text=True, errors="replace").stdout.split("\n"):
        parts = line.split(None, 3)
        if len(parts) == 4:
            found[int(parts[0])] = int(parts[1]), int(parts[2]), parts[3].split()
    return found


def work_of(words):
    """The crate that a process works on, and at what; none where it is no part of the work."""
    name = os.path.basename(words[0])
    if name.startswith("clang") or name == "rattle-link":
        return "building (clang)", "proof"
    if name != "rattle":
        return None
    crate = words[words.index("--crate-name") + 1] if "--crate-name" in words[:-1] else "?"
    phase = "edits" if any("rt-edit" in word for word in words) else "tests" if "--test" in words else "proof"
    return crate, phase


def measured(gate):
    """Seconds by crate and phase of all that the gate's process started."""
    spent = {}
    while gate.poll() is None:
        found = processes()
        for pid, (_, seconds, words) in found.items():
            work = work_of(words)
            at = pid
            while work and at in found and at != gate.pid:
                at = found[at][0]
            if work and at == gate.pid:
                spent[pid, work] = seconds
        time.sleep(2)
    sums = collections.Counter()
    for (_, work), seconds in spent.items():
        sums[work] += seconds
    return sums


def chain(sums):
    """The dearest chain of crates that stand on one another, with its minutes."""
    rows = {m[1]: m[2].split() for m in (re.match(r"([a-z_0-9]+)[^:#]*:([^#]*)", line) for line in open(f"{TOP}/crates.txt")) if m}
    known = {}

    def dearest(crate):
        if crate not in known:
            below = max((dearest(name) for name in rows[crate] if name in rows), default=(0, []))
            known[crate] = below[0] + sums[crate, "proof"] / 60, [*below[1], crate]
        return known[crate]

    return max(map(dearest, rows))


def read(lines, last):
    """Writes what the gate says to its log, and keeps the last line."""
    os.makedirs(f"{TOP}/out", exist_ok=True)
    with open(f"{TOP}/out/gate.log", "w") as log:
        for line in lines:
            log.write(line)
            log.flush()
            last.append(line)


def main():
    begun = time.time()
    environment = {"RT_JOBS": str(os.cpu_count()), **os.environ}
    gate = subprocess.Popen(WORDS, cwd=TOP, env=environment, stdin=subprocess.DEVNULL, stdout=subprocess.PIPE, stderr=subprocess.STDOUT, text=True, errors="replace")
    last = collections.deque(maxlen=1)
    reader = threading.Thread(target=read, args=(gate.stdout, last), daemon=True)
    reader.start()
    sums = measured(gate)
    reader.join()
    print("| Crate | Proof | Tests | Wrong bodies | Together |\n|---|---|---|---|---|")
    for crate in sorted({crate for crate, _ in sums}):
        parts = [sums[crate, phase] / 60 for phase in PHASES]
        print(f"| {crate} | " + " | ".join(f"{part:.1f}" for part in (*parts, sum(parts))) + " |")
    parts = [sum(seconds for (_, phase), seconds in sums.items() if phase == one) / 60 for one in PHASES]
    print("| all | " + " | ".join(f"{part:.1f}" for part in (*parts, sum(parts))) + " |")
    minutes, crates = chain(sums)
    print(f"longest chain, {minutes:.1f} minutes: " + " ".join(f"{crate} {sums[crate, 'proof'] / 60:.1f}" for crate in crates))
    print(*last, end="")
    print(f"minutes on {os.cpu_count()} processors: {(time.time() - begun) / 60:.0f}")


main()
