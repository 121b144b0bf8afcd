#!/usr/bin/env python3
"""Seconds by function of the proofs that run on this machine: bench/functions.py [LEAST] [>FILE], begun beside a gate with one job a check.

Looks each two seconds at the files that the prover writes one after another, until none has run for a minute, and then prints the
functions that took LEAST seconds or more (8), dearest first: the seconds, the size in kB of what is proved of its ways out, and where the
time went: Lts, the ways out with what each drops; Proof, searches. Seconds are those of a busy machine."""
import collections, os, re, sys, tempfile, time

LEAST = float(sys.argv[1]) if len(sys.argv) > 1 else 8
files, idle = {}, time.time()
while time.time() - idle < 60:
    for folder in os.scandir(tempfile.gettempdir()):
        if not folder.name.startswith("rattle-logic-built-"):
            continue
        idle = time.time()
        for at, _, names in os.walk(folder.path):
            for name in names:
                if name.endswith(".oantt") and (folder.name, name) not in files:
                    try:
                        found = os.stat(f"{at}/{name}")
                    except OSError:
                        continue
                    files[folder.name, name] = found.st_mtime, found.st_size
    time.sleep(2)

runs = collections.defaultdict(list)
for (run, name), (at, size) in files.items():
    runs[run].append((at, size, name.removesuffix(".oantt")))
spent, parts, size = collections.Counter(), collections.defaultdict(collections.Counter), collections.Counter()
for made in runs.values():
    made.sort()
    for (before, _, _), (at, bytes_, name) in zip(made, made[1:]):
        crate = re.match(r"Rattle-(\w+?)(?:-|$)", name)
        if not crate or not crate[1].startswith("flow_"):
            continue
        name = re.sub(r"^Rattle-\w+-?(?:(?:proofs|specs\.contracts|specs)\.)?", "", name)
        function = re.split(r"\.(?:Code|Lts|Key|Symbol|Mir|Proof|Answers|Invariants|Goals|Walk|Lemma|Steps|Call|Tie)\b", name)[0].strip("+")
        part = name[len(function):].strip("+").split(".")[1:2] or ["itself"]
        key = f"{crate[1]}  {function}"
        spent[key] += at - before
        parts[key][part[0]] += at - before
        if ".Lts" in name:
            size[key] = max(size[key], bytes_)
print(f"{sum(spent.values()) / 60:.0f} minutes in {len(files)} files")
for key, seconds in spent.most_common():
    if seconds < LEAST:
        break
    print(f"{seconds:7.1f} {size[key] // 1000:7d}k  {key}  " + ", ".join(f"{part} {took:.1f}" for part, took in parts[key].most_common(3) if took > 0.3))
