#!/usr/bin/env python3
"""bench/mounts.py OVERLAYD [BRIDGE]: programs on a mount of the bridge and of overlayfs, in turn.

As root, with /dev/fuse, git, make, cc and dpkg. OVERLAYD is the program, BRIDGE the bridge
(out/overlayd-fuse). Each load runs on the bridge, on a server and, where it is built so, with the
engine inside, without and with --poll, on the kernel's overlayfs and, where it is installed, on
fuse-overlayfs, over the same lower layer, each time on a new mount, in turn, ROUNDS times
(variable, 5). The variable MEMFS is a command that mounts a file system in memory on the directory
behind it, and stays in the foreground; it joins them. Lower layers, uppers and the server's socket
are on a tmpfs. The least time of each counts. `clone`, `make` and `rm` end with what was written
being with the file system (`sync -f`). What is printed is a table, in seconds, and the load of the
machine.
"""

import contextlib
import os
import shlex
import shutil
import subprocess
import sys
import tempfile
import time

ROUNDS = int(os.environ.get("ROUNDS", "5"))
ROOT = os.path.dirname(os.path.dirname(os.path.abspath(__file__)))
GIT = dict(os.environ, GIT_CONFIG_NOSYSTEM="1", HOME="/nonexistent", LC_ALL="C",
           GIT_AUTHOR_NAME="a", GIT_AUTHOR_EMAIL="a@example", GIT_COMMITTER_NAME="a",
           GIT_COMMITTER_EMAIL="a@example")
OVERLAY = "redirect_dir=on,index=off,xino=off,metacopy=off"
FOLDERS, FILES, UNITS = 50, 20, 40

# A load's name, and what a shell does for it in the mount; what is timed comes after the second.
LOADS = {
    "clone": ("true", "git clone -q --no-hardlinks repository clone; sync -f ."),
    "make": ("true", "make -s -C project; sync -f ."),
    "make -j4": ("true", "make -s -j4 -C project; sync -f ."),
    "find": ("true", "find tree -type f -size +0 -perm -u=r > /dev/null"),
    "find again": ("find tree -type f -size +0 > /dev/null",
                   "find tree -type f -size +0 -perm -u=r > /dev/null"),
    "rm": ("true", "rm -r tree; sync -f ."),
    "tar x": ("tar cf tree.tar tree; sync -f .", "mkdir out; tar xf tree.tar -C out; sync -f ."),
    "cp -a": ("true", "cp -a tree copy; sync -f ."),
    "grep -r": ("true", "grep -r nothing.of.this tree || true"),
    "dpkg -i": ("dpkg-deb -b --root-owner-group package p.deb > /dev/null; sync -f .",
                "dpkg --root=\"$PWD/root\" -i p.deb > /dev/null; sync -f ."),
    "git status": ("true", "git -C repository status > /dev/null"),
    "write 64 MiB": ("true", "dd if=/dev/zero of=large bs=1M count=64 status=none; sync -f ."),
    "read 64 MiB": ("dd if=/dev/zero of=large bs=1M count=64 status=none; sync -f ."
                    "; dd if=large iflag=nocache count=0 status=none", "cat large > /dev/null"),
}


def fill_package(lower):
    """What a package is made of, and a root in which nothing is installed."""
    package = os.path.join(lower, "package")
    shutil.copytree(os.path.join(lower, "tree"), os.path.join(package, "usr", "share", "tree"))
    os.mkdir(os.path.join(package, "DEBIAN"))
    with open(os.path.join(package, "DEBIAN", "control"), "w", encoding="ascii") as file:
        file.write("Package: tree\nVersion: 1\nArchitecture: all\nMaintainer: a <a@example>\n"
                   "Description: a tree of files\n")
    for name in ("info", "updates", "triggers"):
        os.makedirs(os.path.join(lower, "root", "var", "lib", "dpkg", name))
    with open(os.path.join(lower, "root", "var", "lib", "dpkg", "status"), "w", encoding="ascii"):
        pass


def fill(lower):
    """A tree of files, a repository and a package of the same, and a project in C."""
    for folder in range(FOLDERS):
        path = os.path.join(lower, "tree", f"d{folder % 7}", f"f{folder}")
        os.makedirs(path)
        for number in range(FILES):
            with open(os.path.join(path, f"name{number}"), "w", encoding="ascii") as file:
                file.write(f"{folder} {number}\n" * (1 + 37 * number % 200))
    shutil.copytree(os.path.join(lower, "tree"), os.path.join(lower, "repository"))
    for words in (["init", "-q", "-b", "main"], ["add", "."], ["commit", "-qm", "one"]):
        subprocess.run(["git", *words], cwd=os.path.join(lower, "repository"), check=True, env=GIT)
    fill_package(lower)
    project = os.path.join(lower, "project")
    os.mkdir(project)
    for unit in range(UNITS):
        with open(os.path.join(project, f"u{unit}.c"), "w", encoding="ascii") as file:
            file.write(f"#include \"all.h\"\nint u{unit}(void) {{ return COUNT + {unit}; }}\n")
    with open(os.path.join(project, "all.h"), "w", encoding="ascii") as file:
        file.write("#define COUNT 1\n")
    objects = " ".join(f"u{unit}.o" for unit in range(UNITS))
    with open(os.path.join(project, "Makefile"), "w", encoding="ascii") as file:
        file.write(f"all.a: {objects}\n\tar cr $@ {objects}\n%.o: %.c all.h\n\tcc -c -o $@ $<\n")


class Mount:
    """A mount in a folder of its own, over a lower layer."""

    def __init__(self, folder, lower):
        self.folder, self.lower = folder, lower
        for name in ("upper", "work", "mount"):
            os.mkdir(os.path.join(folder, name))
        self.at = os.path.join(folder, "mount")
        self.running = []
        self.begin()

    def options(self):
        return f"lowerdir={self.lower},upperdir={self.folder}/upper,workdir={self.folder}/work"

    def start(self, words):
        self.running.append(subprocess.Popen(words, stdin=subprocess.DEVNULL))

    def wait_for(self, is_there):
        """Waits for what the program that was started last makes."""
        for _ in range(60000):
            if is_there():
                return
            if self.running[-1].poll() is not None:
                break
            time.sleep(0.01)
        raise SystemExit("no mount: " + " ".join(self.running[-1].args))

    def end(self):
        subprocess.run(["umount", self.at], check=True)
        for process in reversed(self.running):
            if process is self.running[0] and len(self.running) > 1:
                process.kill()
            process.wait()


class Kernel(Mount):
    name = "overlayfs"

    def begin(self):
        subprocess.run(["mount", "-t", "overlay", "overlay", "-o",
                        f"{self.options()},{OVERLAY}", self.at], check=True)


class FuseOverlayfs(Mount):
    name = "fuse-overlayfs"

    def begin(self):
        self.start(["fuse-overlayfs", "-f", "-o", self.options(), self.at])
        self.wait_for(lambda: os.path.ismount(self.at))


class Bridge(Mount):
    name = "bridge"
    overlayd, bridge, manifest = None, None, None

    def begin(self):
        socket = os.path.join(self.folder, "socket")
        self.start([self.overlayd, "serve", self.manifest, socket, "--no-history"])
        self.wait_for(lambda: os.path.exists(socket))
        self.start([self.bridge, socket, self.at, "-f"])
        self.wait_for(lambda: os.path.ismount(self.at))


class Inside(Bridge):
    name = "bridge inside"
    options_more = ()

    def begin(self):
        self.start([self.bridge, "--manifest", self.manifest, self.at, "-f", *self.options_more])
        self.wait_for(lambda: os.path.ismount(self.at))


class Polling(Inside):
    name = "with --poll 15"
    options_more = ("--poll", "15")


class Memory(Mount):
    name = "in memory"
    program = os.environ.get("MEMFS")

    def begin(self):
        self.start([*shlex.split(self.program), self.at])
        self.wait_for(lambda: os.path.ismount(self.at))
        subprocess.run(["cp", "-a", self.lower + "/.", self.at], check=True)


def has_engine(bridge):
    """Whether a bridge was built with the engine."""
    done = subprocess.run([bridge, "--manifest", os.devnull, os.devnull], stdin=subprocess.DEVNULL,
                          capture_output=True, check=False)
    return b"isn't built in" not in done.stderr


def imported(lower, folder):
    manifest = os.path.join(folder, "mount.toml")
    subprocess.run([sys.executable, "-m", "overlayd.importer", "-q", "--redirect-dir", "on",
                    "--file-limit", str(1 << 28), lower, "-o", manifest], check=True,
                   env=dict(os.environ, PYTHONPATH=os.path.join(ROOT, "clients", "python")))
    return manifest


def measured(kind, lower, load, folder):
    """How long the second part of a load takes, on a new mount."""
    place = tempfile.mkdtemp(dir=folder)
    mount = kind(place, lower)
    try:
        first, timed = LOADS[load]
        subprocess.run(["sh", "-euc", first], cwd=mount.at, check=True, env=GIT)
        began = time.monotonic()
        subprocess.run(["sh", "-euc", timed], cwd=mount.at, check=True, env=GIT)
        return time.monotonic() - began
    finally:
        mount.end()
        shutil.rmtree(place)


def table(kinds, times):
    ours = Inside if Inside in kinds else Bridge
    rest = [kind for kind in kinds if not issubclass(kind, Bridge)]
    print("| load | " + " | ".join(kind.name for kind in kinds)
          + "".join(f" | {ours.name} to {kind.name}" for kind in rest) + " |")
    print("|---" * (1 + len(kinds) + len(rest)) + "|")
    for load in LOADS:
        least = {kind: min(times[load, kind]) for kind in kinds}
        print(f"| `{load}` | " + " | ".join(f"{least[kind]:.3f}" for kind in kinds)
              + "".join(f" | {least[ours] / least[kind]:.2f}" for kind in rest) + " |")


def kinds_of(words, usage):
    """What is measured, by the words of a command line."""
    if not 1 <= len(words) <= 2 or os.geteuid() != 0:
        sys.exit(usage)
    Bridge.overlayd = os.path.abspath(words[0])
    Bridge.bridge = os.path.abspath((words + ["out/overlayd-fuse"])[1])
    return [Bridge, *([Inside, Polling] if has_engine(Bridge.bridge) else []), Kernel,
            *([FuseOverlayfs] if shutil.which("fuse-overlayfs") else []),
            *([Memory] if Memory.program else [])]


@contextlib.contextmanager
def on_a_tmpfs(fill_lower):
    """A folder of its own, with a lower layer and its manifest; the machine's load in the end."""
    folder = tempfile.mkdtemp()
    subprocess.run(["mount", "-t", "tmpfs", "tmpfs", folder], check=True)
    try:
        lower = os.path.join(folder, "lower")
        os.mkdir(lower)
        fill_lower(lower)
        Bridge.manifest = imported(lower, folder)
        yield folder, lower
        print("load of the machine: %.1f %.1f %.1f" % os.getloadavg())
    finally:
        subprocess.run(["umount", folder], check=True)
        os.rmdir(folder)


def main(words):
    kinds = kinds_of(words, __doc__)
    with on_a_tmpfs(fill) as (folder, lower):
        times = {(load, kind): [] for load in LOADS for kind in kinds}
        for _ in range(ROUNDS):
            for load in LOADS:
                for kind in kinds:
                    times[load, kind].append(measured(kind, lower, load, folder))
        table(kinds, times)


if __name__ == "__main__":
    main(sys.argv[1:])
