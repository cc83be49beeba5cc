#!/usr/bin/env python3
"""Where the gate's minutes go: runs `rt ci --anew` on two processors and prints, for each crate, the processor seconds
of its proof, of its tests, and of its must-fail edits.

  minutes.py            runs it, in a fresh clone (it takes the better part of an hour)
  minutes.py FILE       prints the table of samples that were kept by an earlier run
  minutes.py --keep FILE  runs it, and keeps the samples

It looks at the checker's processes once a second. What a process does between the last look and its end is lost, a second at
most for each.
"""
import collections
import json
import os
import re
import subprocess
import sys
import time

HERTZ = os.sysconf("SC_CLK_TCK")
PROCESSORS = {0, 1}


def look(pid):
    """A process on our processors: its processor seconds, its command and its folder."""
    try:
        if os.sched_getaffinity(pid) != PROCESSORS:
            return None
        fields = open("/proc/%d/stat" % pid).read().rsplit(")", 1)[1].split()
        command = open("/proc/%d/cmdline" % pid).read().replace("\0", " ")
        return {"start": int(fields[19]), "cpu": (int(fields[11]) + int(fields[12])) / HERTZ,
                "cmd": command[:2000], "cwd": os.readlink("/proc/%d/cwd" % pid)}
    except (OSError, IndexError):
        return None


def sample(seen):
    for name in os.listdir("/proc"):
        found = look(int(name)) if name.isdigit() else None
        if found:
            seen["%s:%d" % (name, found["start"])] = found


def run():
    seen = {}
    gate = subprocess.Popen(["taskset", "-c", ",".join(map(str, sorted(PROCESSORS))), "rt", "ci", "--anew"])
    while gate.poll() is None:
        sample(seen)
        time.sleep(1)
    return seen


def kind(process):
    """proof, tests or edits. An edit is tried in a folder of its own."""
    if "/rt-edit" in process["cwd"]:
        return "edits"
    return "tests" if "--test" in process["cmd"] else "proof"


def table(seen):
    seconds = collections.defaultdict(collections.Counter)
    for process in seen.values():
        crate = re.search(r"--crate-name (\w+)", process["cmd"])
        seconds[crate.group(1) if crate else "other"][kind(process)] += process["cpu"]
    return seconds


def main():
    keep = sys.argv[2] if sys.argv[1:2] == ["--keep"] else None
    seen = json.load(open(sys.argv[1])) if len(sys.argv) == 2 else run()
    if keep:
        json.dump(seen, open(keep, "w"))
    seconds = table(seen)
    total = collections.Counter()
    for crate in sorted(seconds, key=lambda c: -sum(seconds[c].values())):
        row = [round(seconds[crate][k]) for k in ("proof", "tests", "edits")]
        total.update(seconds[crate])
        print("| `%s` | %d | %d | %d | %d |" % (crate, *row, sum(row)))
    print("all: %s" % ", ".join("%s %d" % (k, round(v)) for k, v in total.items()))


if __name__ == "__main__":
    main()
