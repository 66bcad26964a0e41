#!/usr/bin/env python3
"""bench/rates.py OVERLAYD [BRIDGE]: dbench and postmark on the mounts that mounts.py measures.

As root, with dbench and postmark; OVERLAYD, BRIDGE, ROUNDS and MEMFS are as in mounts.py, and so
are the mounts, which are empty at first and new for each run, in turn. dbench plays its own script
of a file server's day with 4 clients for SECONDS (variable, 10) and tells megabytes a second.
postmark makes 2,000 files of 500 to 10,000 bytes, 10,000 transactions on them, and removes them;
its rate is the transactions by the seconds of all of it. The greatest of each counts.
"""

import os
import re
import shutil
import subprocess
import sys
import tempfile
import time

import mounts

SECONDS = int(os.environ.get("SECONDS", "10"))
CLIENTS, FILES, TRANSACTIONS = 4, 2000, 10000
SCRIPT = "/usr/share/dbench/client.txt"
POSTMARK = f"""set location .
set number {FILES}
set size 500 10000
set transactions {TRANSACTIONS}
set subdirectories 20
run
quit
"""


def dbench(folder):
    told = subprocess.run(["dbench", "-c", SCRIPT, "-D", folder, "-t", str(SECONDS), str(CLIENTS)],
                          check=True, capture_output=True, text=True).stdout
    return float(re.search(r"^Throughput ([0-9.]+) MB/sec", told, re.MULTILINE).group(1))


def postmark(folder):
    began = time.monotonic()
    told = subprocess.run(["postmark"], cwd=folder, input=POSTMARK, check=True,
                          capture_output=True, text=True).stdout
    took = time.monotonic() - began
    if "transactions" not in told or os.listdir(folder):
        raise SystemExit("postmark: " + told)
    return TRANSACTIONS / took


LOADS = {"dbench, MB a second": dbench, "postmark, transactions a second": postmark}


def measured(kind, lower, load, folder):
    """What a load reaches on a new mount."""
    place = tempfile.mkdtemp(dir=folder)
    mount = kind(place, lower)
    try:
        return LOADS[load](mount.at)
    finally:
        mount.end()
        shutil.rmtree(place)


def table(kinds, rates):
    ours = mounts.Inside if mounts.Inside in kinds else mounts.Bridge
    rest = [kind for kind in kinds if not issubclass(kind, mounts.Bridge)]
    print("| load | " + " | ".join(kind.name for kind in kinds)
          + "".join(f" | {ours.name} to {kind.name}" for kind in rest) + " |")
    print("|---" * (1 + len(kinds) + len(rest)) + "|")
    for load in LOADS:
        most = {kind: max(rates[load, kind]) for kind in kinds}
        print(f"| {load} | " + " | ".join(f"{most[kind]:.0f}" for kind in kinds)
              + "".join(f" | {most[ours] / most[kind]:.2f}" for kind in rest) + " |")


def main(words):
    kinds = mounts.kinds_of(words, __doc__)
    with mounts.on_a_tmpfs(lambda lower: None) as (folder, lower):
        rates = {(load, kind): [] for load in LOADS for kind in kinds}
        for _ in range(mounts.ROUNDS):
            for load in LOADS:
                for kind in kinds:
                    rates[load, kind].append(measured(kind, lower, load, folder))
        table(kinds, rates)


if __name__ == "__main__":
    main(sys.argv[1:])
