#!/usr/bin/env python3
"""serve.py OVERLAYD OVERLAY_BENCH [COUNT]: how `overlayd serve` compares with a bare echo.

It answers `stat`s of one file at depth 4, over two layers, with a history and with none; the echo
answers frames of the same sizes; each has 8 workers. One client, and 8 at once, ask COUNT each, of
each server in turn, five times; the least wait and the greatest rate count. The memory of a server
is told before the first call and after the last. `cc` builds the clients.
"""

import os
import statistics
import subprocess
import sys
import tempfile
import time

ROUNDS = 5
WORKERS = 8
DIRECTORIES = ["/dirs-0000000", "/dirs-0000001", "/dirs-0000002"]


def manifest():
    """Two layers, the lower with one file of 4,096 bytes below three directories."""
    lines = ["history = 1000000", "[[layer]]", "[[layer]]"]
    path = ""
    for name in DIRECTORIES:
        path += name
        lines += ["[[layer.entry]]", 'kind = "dir"', f'path = "{path}"']
    lines += ["[[layer.entry]]", 'kind = "file"', f'path = "{path}/name-0000000"', "zeros = 4096"]
    return "\n".join(lines) + "\n"


def started(words, socket):
    """A server that listens on a socket."""
    server = subprocess.Popen(words)
    for _ in range(1000):
        if os.path.exists(socket):
            return server
        time.sleep(0.01)
    raise SystemExit("no server: " + " ".join(words))


def resident(server):
    """The most memory that a server had, in KiB."""
    with open(f"/proc/{server.pid}/status", encoding="ascii") as status:
        return next(int(line.split()[1]) for line in status if line.startswith("VmHWM"))


def measured(load, words, socket, clients, count):
    """What the clients say of one run, and the memory that an entry of the history took."""
    server = started(words, socket)
    before = resident(server)
    try:
        told = subprocess.run(
            [load, socket, str(clients), str(count)], check=True, capture_output=True, text=True
        ).stdout
        grown = (resident(server) - before) * 1024 / (clients * count)
    finally:
        server.kill()
        server.wait()
        os.unlink(socket)
    rate, mean, least, half, most = map(float, told.split())
    return {"rate": rate, "mean": mean, "least": least, "half": half, "most": most, "grown": grown}


def told(name, runs):
    """One line of the table."""
    mean = min(run["mean"] for run in runs)
    half = min(run["half"] for run in runs)
    most = min(run["most"] for run in runs)
    rate = max(run["rate"] for run in runs)
    spread = [round(run["mean"]) for run in runs]
    grown = statistics.median(run["grown"] for run in runs)
    print(f"{name}: mean {mean:.0f} ns, half within {half:.0f}, 99 of 100 within {most:.0f};"
          f" {rate:.0f} calls a second; {grown:.0f} bytes a call; means {spread}")
    return mean, half, rate


def compared(load, programs, socket, clients, count):
    """Runs all in turn and tells what came of it."""
    runs = {name: [] for name in programs}
    for _ in range(ROUNDS):
        for name, words in programs.items():
            runs[name].append(measured(load, words, socket, clients, count))
    print(f"clients: {clients}, calls of each: {count}")
    found = {name: told(name, runs[name]) for name in programs}
    echo = found.pop("echo")
    for name, serve in found.items():
        print(f"{name} to echo: mean {serve[0] / echo[0]:.2f}, half {serve[1] / echo[1]:.2f},"
              f" rate {serve[2] / echo[2]:.2f}")


def main():
    """Builds the clients and compares."""
    overlayd, bench = sys.argv[1:3]
    count = int(sys.argv[3]) if len(sys.argv) > 3 else 20000
    here = os.path.dirname(os.path.abspath(__file__))
    with tempfile.TemporaryDirectory() as folder:
        load, socket, layers = (f"{folder}/{name}" for name in ("load", "socket", "layers.toml"))
        words = ["cc", "-O2", "-pthread", "-o", load, f"{here}/serve_load.c"]
        subprocess.run(words, check=True)
        with open(layers, "w", encoding="ascii") as file:
            file.write(manifest())
        serve = [overlayd, "serve", layers, socket, "--workers", str(WORKERS)]
        programs = {
            "serve": serve,
            "serve --no-history": [*serve, "--no-history"],
            "echo": [bench, "echo", str(WORKERS), socket],
        }
        compared(load, programs, socket, 1, count)
        compared(load, programs, socket, 8, count)


if __name__ == "__main__":
    main()
