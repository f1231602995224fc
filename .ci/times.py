#!/usr/bin/env python3
"""What the gate takes: runs `rt ci` with the words given, and prints a table of processor seconds for each crate.

    .ci/times.py [--anew] [CRATE..]

Each check of the prover is a process of its own. Its processor time is read twice a second while it runs, and added to
the crate's proof, its tests, or its must-fail edits, where the check that the edits begin with counts as one of them. The minutes
are those by which the crate's proof and its tests were through, by the clock. The output of `rt ci` goes to standard error.
"""
import os
import subprocess
import sys
import threading
import time

TICKS = os.sysconf("SC_CLK_TCK")
KINDS = ("proof", "tests", "edits")


def crates_of(root):
    with open(f"{root}/crates.txt", encoding="utf-8") as lines:
        return [it.split(":")[0].split()[0] for it in lines if it.strip() and not it.startswith("#")]


def check_of(pid):
    """Returns the crate, the kind and the processor seconds of a check of the prover, or None for any other process."""
    try:
        with open(f"/proc/{pid}/cmdline", "rb") as it:
            words = it.read().decode(errors="replace").split("\0")
        if os.path.basename(words[0]) != "rattle" or "--crate-name" not in words:
            return None
        with open(f"/proc/{pid}/stat", encoding="utf-8") as it:
            fields = it.read().rsplit(")", 1)[1].split()
        folder = os.readlink(f"/proc/{pid}/cwd")
    except OSError:
        return None
    kind = "edits" if "rt-edit" in folder else "tests" if "--test" in words else "proof"
    return words[words.index("--crate-name") + 1], kind, (int(fields[11]) + int(fields[12])) / TICKS


def is_below(pid, top):
    """Returns whether the process was started by `top`, or by one that was."""
    while pid > 1:
        if pid == top:
            return True
        try:
            with open(f"/proc/{pid}/stat", encoding="utf-8") as it:
                pid = int(it.read().rsplit(")", 1)[1].split()[1])
        except OSError:
            return False
    return False


def watch(gate, seen):
    own = {}
    while gate.poll() is None:
        for pid in (int(it) for it in os.listdir("/proc") if it.isdigit()):
            found = check_of(pid)
            if found and own.setdefault(pid, is_below(pid, gate.pid)):
                key = pid, found[0], found[1]
                seen[key] = max(seen.get(key, 0), found[2])
        time.sleep(0.5)


def main():
    root = os.path.dirname(os.path.dirname(os.path.abspath(__file__)))
    begun, seen, ends = time.time(), {}, {}
    gate = subprocess.Popen(["rt", "ci", *sys.argv[1:]], cwd=root, stdout=subprocess.PIPE, stderr=subprocess.STDOUT, text=True, errors="replace")
    watcher = threading.Thread(target=watch, args=(gate, seen))
    watcher.start()
    for line in gate.stdout:
        minutes = (time.time() - begun) / 60
        print(f"{minutes:6.1f} {line}", end="", file=sys.stderr, flush=True)
        words = line.replace(": its tests are proved", " tests").split()
        if line.startswith("rt: ") and len(words) == 3 and words[2] in ("proved", "tests"):
            ends[words[1], words[2]] = minutes
    watcher.join()
    totals = {}
    for (_, crate, kind), seconds in seen.items():
        totals[crate, kind] = totals.get((crate, kind), 0) + seconds
    print("| Crate | proof, s | by, min | tests, s | by, min | edits, s |\n|---|---|---|---|---|---|")
    for crate in crates_of(root):
        proof, tests, edits = (totals.get((crate, kind), 0) for kind in KINDS)
        at = [f"{ends[crate, it]:.1f}" if (crate, it) in ends else "" for it in ("proved", "tests")]
        shown = [f"{it:.0f}" if it else "" for it in (tests, edits)]
        print(f"| `{crate}` | {proof:.0f} | {at[0]} | {shown[0]} | {at[1]} | {shown[1]} |")
    sums = [sum(seconds for (_, kind), seconds in totals.items() if kind == it) / 60 for it in KINDS]
    print(f"\nIn all {sums[0]:.0f}, {sums[1]:.0f} and {sums[2]:.0f} processor minutes; {(time.time() - begun) / 60:.0f} minutes by the clock.")
    return gate.returncode


if __name__ == "__main__":
    sys.exit(main())
