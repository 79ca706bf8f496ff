#!/usr/bin/env python3
"""How long each crate's proof, tests and must-fail edits take in the merge gate.

    measure/gate.py run LOG       runs `rt ci` at the top of this repository (further words are passed on),
                                  writes its lines that tell of progress to LOG, each behind its second,
                                  and at the end the processor seconds of what it ran for each crate
    measure/gate.py table LOG..   prints docs/GATE.md's tables of such a log, or of a log with times HH:MM:SS

A crate's proof begins once all crates below it are proved and a processor is free, so "ready" is when the last
crate below was proved, and what lies between "ready" and "proved" is waiting and proof together. The gate tells
of edits only when it begins them, so their time is seen in the processor seconds alone. These are sampled once
a second from the gate's own processes, and so lack the last second of each.
"""
import os
import re
import subprocess
import sys
import threading
import time

TOP = os.path.dirname(os.path.dirname(os.path.abspath(__file__)))
KINDS = ("proof", "tests", "edits")
TICKS = os.sysconf("SC_CLK_TCK")


def children():
    """The numbers of the processes by that of the one that started them."""
    below = {}
    for pid in filter(str.isdigit, os.listdir("/proc")):
        try:
            stat = open(f"/proc/{pid}/stat").read()
        except OSError:
            continue
        below.setdefault(int(stat.rpartition(")")[2].split()[1]), []).append(int(pid))
    return below


def descendants(root):
    below, open_ones, found = children(), [root], []
    while open_ones:
        more = below.get(open_ones.pop(), [])
        found += more
        open_ones += more
    return found


def sample(pid, seen):
    """Notes the processor seconds of a process that works on a crate, under that crate and kind."""
    try:
        words = open(f"/proc/{pid}/cmdline").read().split("\0")
        where = os.readlink(f"/proc/{pid}/cwd")
        stat = open(f"/proc/{pid}/stat").read().rpartition(")")[2].split()
    except OSError:
        return
    if "--crate-name" not in words:
        return
    crate = words[words.index("--crate-name") + 1]
    kind = "edits" if "/rt-edit" in where + " ".join(words) else "tests" if "--test" in words else "proof"
    seen[pid, stat[19]] = crate, kind, (int(stat[11]) + int(stat[12])) / TICKS


def run(log, words):
    begun, seen = time.time(), {}
    gate = subprocess.Popen(["rt", "ci", *words], cwd=TOP, stdout=subprocess.PIPE, stderr=subprocess.STDOUT, text=True)
    out = open(log, "w")

    def stamp():
        for line in gate.stdout:
            if re.match(r"rt: |\d+ passed", line):
                print(f"{time.time() - begun:.0f} {line}", end="", file=out, flush=True)

    reader = threading.Thread(target=stamp)
    reader.start()
    while gate.poll() is None:
        for pid in descendants(gate.pid):
            sample(pid, seen)
        time.sleep(1)
    reader.join()
    sums = {}
    for crate, kind, seconds in seen.values():
        sums[crate, kind] = sums.get((crate, kind), 0) + seconds
    for (crate, kind), seconds in sorted(sums.items()):
        print(f"cpu {crate} {kind} {seconds:.0f}", file=out)
    print(f"end {time.time() - begun:.0f} processors {os.cpu_count()}", file=out)
    return gate.returncode


def second_of(word):
    """The second that a line's first word tells: a number, or a time of day."""
    if re.fullmatch(r"\d+:\d\d:\d\d", word):
        hours, minutes, seconds = map(int, word.split(":"))
        return 3600 * hours + 60 * minutes + seconds
    return int(word)


def read(log):
    """What a log tells: for each crate the seconds at which it was proved and so on, and the processor seconds."""
    told, spent, last, begun = {}, {}, "", None
    for line in open(log):
        if line.startswith("cpu "):
            _, crate, kind, seconds = line.split()
            spent[crate, kind] = int(seconds)
            continue
        if line.startswith("end "):
            last = line.split(" ", 1)[1].strip()
            continue
        stamp, _, text = line.partition(" ")
        if begun is None:
            begun = second_of(stamp) if ":" in stamp else 0
        at = second_of(stamp) - begun
        for kind, form in (
            ("proof", r"rt: (\w+) proved"),
            ("tests", r"rt: (\w+): its tests are proved"),
            ("edits", r"rt: (\w+): trying its must-fail edits"),
            ("run", r"rt: (\w+)(?:: its tests passed| ran\b)"),
        ):
            found = re.match(form, text)
            if found:
                told.setdefault(found.group(1), {})[kind] = at
        kept = re.match(r"rt: (\w+)(?:: its tests)? (?:is|are) kept", text)
        if kept:
            told.setdefault(kept.group(1), {})["kept"] = True
        count = re.match(r"rt: (\w+): trying its must-fail edits \((\d+)\)", text)
        if count:
            told[count.group(1)]["count"] = int(count.group(2))
    return told, spent, last


def crates_below():
    lines = (line.partition("#")[0] for line in open(f"{TOP}/crates.txt"))
    split = (line.partition(":") for line in lines if ":" in line)
    return {name.split()[0]: below.split() for name, _, below in split}


def clock(seconds):
    return "" if seconds is None else f"{seconds // 60}:{seconds % 60:02}"


def table(log):
    told, spent, last = read(log)
    below = crates_below()
    print("| Crate | Ready | Proved | Tests proved | Edits begun | Edits | Processor: proof | tests | edits | all |")
    print("|---|--:|--:|--:|--:|--:|--:|--:|--:|--:|")
    sums = [0, 0, 0]
    for crate in sorted(told, key=lambda it: told[it].get("proof", 0)):
        it = told[crate]
        ready = max((told.get(low, {}).get("proof", 0) for low in below.get(crate, [])), default=0)
        taken = [spent.get((crate, kind)) for kind in KINDS]
        sums = [a + (b or 0) for a, b in zip(sums, taken)]
        whole = sum(filter(None, taken)) or None
        name = crate + " (kept)" * it.get("kept", False)
        cells = [name, clock(ready), *(clock(it.get(kind)) for kind in KINDS), str(it.get("count", ""))]
        print("| " + " | ".join(cells + [clock(s) for s in (*taken, whole)]) + " |")
    if any(sums):
        print("| all |  |  |  |  |  | " + " | ".join(clock(s) for s in (*sums, sum(sums))) + " |")
    if last:
        seconds, _, processors = last.split()
        print(f"\nThe whole gate took {clock(int(seconds))} minutes on {processors} processors.")


def main(words):
    if len(words) >= 2 and words[0] == "run":
        return run(words[1], words[2:])
    if len(words) >= 2 and words[0] == "table":
        for log in words[1:]:
            table(log)
        return 0
    print(__doc__, file=sys.stderr)
    return 1


if __name__ == "__main__":
    sys.exit(main(sys.argv[1:]))
