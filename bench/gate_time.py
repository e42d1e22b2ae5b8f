#!/usr/bin/env python3
"""Tells for each crate how many lines it has and how many processor minutes the gate takes for it.

    python3 bench/gate_time.py                 clones the repository to a temporary folder, and proves all there from nothing
    python3 bench/gate_time.py --watch PID     watches a run of `rt ci` that goes on already, with this process id

The first runs `rt ci --anew` on the last commit, on all processors, so nothing else should run beside it. The lines are
those of code (src), definitions (specs) and proofs (proofs). The minutes are those of the prover, user and system time:
for the crate's own proofs, for its tests, and for its must-fail edits with the check that they start from. `rt ci` prints
no times, so they are read from /proc twice a second; what is missed of a process is at most its last half second.
"""

import argparse
import collections
import os
import pathlib
import subprocess
import tempfile
import time

ROOT = pathlib.Path(__file__).resolve().parent.parent
TICK = os.sysconf("SC_CLK_TCK")
SECONDS = 0.5
KINDS = ("proofs", "tests", "edits")

Process = collections.namedtuple("Process", "name parent ticks begun")


def processes():
    """The processes of the machine by id; their ticks with those of the children that they waited for."""
    found = {}
    for folder in os.listdir("/proc"):
        if folder.isdigit():
            try:
                text = pathlib.Path(f"/proc/{folder}/stat").read_text(errors="replace")
            except OSError:
                continue
            front, _, behind = text.rpartition(")")
            fields = behind.split()
            ticks = sum(int(it) for it in fields[11:15])
            found[int(folder)] = Process(front.partition("(")[2], int(fields[1]), ticks, fields[19])
    return found


def purpose(pid):
    """The crate that a prover works for, and what it proves of it."""
    words = pathlib.Path(f"/proc/{pid}/cmdline").read_text(errors="replace").split("\0")
    crate = words[words.index("--crate-name") + 1]
    in_edit = "rt-edit-" in os.readlink(f"/proc/{pid}/cwd")
    return crate, "edits" if in_edit else "tests" if "--test" in words else "proofs"


class Watch:
    """The ticks of the provers below a process, by crate and purpose."""

    def __init__(self, top):
        self.top = top
        self.purposes = {}
        self.ticks = {}

    def look(self):
        """Reads what the provers have taken up to now."""
        found, sums = processes(), collections.Counter()
        for pid, process in found.items():
            prover, at = None, pid
            while at in found and at != self.top:
                prover = at if found[at].name == "rattle" else prover
                at = found[at].parent
            if prover and at == self.top:
                sums[prover, found[prover].begun] += process.ticks
        for key, ticks in sums.items():
            try:
                if key not in self.purposes:
                    self.purposes[key] = purpose(key[0])
            except (OSError, ValueError):
                continue
            self.ticks[key] = max(ticks, self.ticks.get(key, 0))

    def minutes(self):
        """Minutes by crate and purpose."""
        taken = collections.Counter()
        for key, ticks in self.ticks.items():
            taken[self.purposes[key]] += ticks / TICK / 60
        return taken


def lines_of(crate, part):
    """How many lines the files of a part of a crate have."""
    files = (ROOT / "crates" / crate / part).rglob("*.*t*")
    return sum(it.read_text().count("\n") for it in files if it.suffix in (".rt", ".antt"))


def print_table(minutes):
    """Prints a line for each crate, in the order of crates.txt, and their sum."""
    listed = [line.partition(":")[0].split() for line in (ROOT / "crates.txt").read_text().splitlines()]
    crates = [words[0] for words in listed if words and not words[0].startswith("#")]
    rows = []
    for crate in crates:
        taken = [minutes[crate, kind] for kind in KINDS]
        rows.append((crate, *(lines_of(crate, part) for part in ("src", "specs", "proofs")), *taken, sum(taken)))
    rows.append(("all", *(sum(row[at] for row in rows) for at in range(1, 8))))
    print(f"{'':16}{'src':>7}{'specs':>7}{'proofs':>8}   minutes:{'proofs':>8}{'tests':>7}{'edits':>7}{'all':>7}")
    for name, src, specs, proofs, *taken in rows:
        print(f"{name:16}{src:7}{specs:7}{proofs:8}{'':11}{taken[0]:8.2f}{taken[1]:7.2f}{taken[2]:7.2f}{taken[3]:7.2f}")


def watch(pid, is_over):
    """Watches a process until it is over, and prints the table."""
    watched = Watch(pid)
    began = time.monotonic()
    while not is_over():
        watched.look()
        time.sleep(SECONDS)
    print_table(watched.minutes())
    print(f"{(time.monotonic() - began) / 60:.1f} minutes on the clock")


def main():
    parser = argparse.ArgumentParser(description=__doc__, formatter_class=argparse.RawDescriptionHelpFormatter)
    parser.add_argument("--watch", type=int, metavar="PID", help="watch this process, a run of rt ci")
    given = parser.parse_args().watch
    if given:
        watch(given, lambda: not os.path.exists(f"/proc/{given}"))
        return
    with tempfile.TemporaryDirectory(prefix="gate-time-") as room:
        subprocess.run(["git", "clone", "--quiet", ROOT, f"{room}/clone"], check=True)
        with open(f"{room}/log", "w+", encoding="utf-8") as log:
            ran = subprocess.Popen(["rt", "ci", "--anew"], cwd=f"{room}/clone", stdout=log, stderr=log)
            watch(ran.pid, lambda: ran.poll() is not None)
            log.seek(0)
            print(log.read().splitlines()[-1])


if __name__ == "__main__":
    main()
