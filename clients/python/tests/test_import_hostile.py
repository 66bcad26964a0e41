"""Sources that nobody means well with: one line and status 1, in bounded time and memory."""

import contextlib
import hashlib
import io
import json
import os
import resource
import subprocess
import sys
import tempfile
import time
import unittest
from pathlib import Path
from typing import Any, Dict, List, Tuple

from overlayd.importer.command import main
from overlayd.importer.directories import DirectoryLayer
from overlayd.importer.keeping import Keep
from overlayd.importer.merging import Merge
from overlayd.importer.objects import File
from overlayd.importer.telling import Refused, Report

from . import hostile_tars
from . import import_tools as tools
from .import_tools import file, tar_of, write_layout

PYTHON = str(Path(__file__).resolve().parents[1])
SECONDS, MEBIBYTES = 1.0, 64
# How many random ones are tried; this file as a program tries as many as it is told.
RANDOM = 200


# Runs of the command, one after the other in one process: of each the status, the lines and the
# seconds of the processor; in the end the most memory, in KiB. Where others share the processor's
# units a second does less: it is measured by a loop that takes a fiftieth of one alone.
CHILD = """
import contextlib, io, json, re, sys, time
from overlayd.importer.command import main
def loop():
    begin = time.process_time()
    for _ in range(600_000):
        pass
    return time.process_time() - begin
found = []
for words in json.load(sys.stdin):
    before, begin = loop(), time.process_time()
    with contextlib.redirect_stderr(io.StringIO()) as told:
        status = main(words)
    seconds = time.process_time() - begin
    slower = max(before, loop(), 0.02) / 0.02
    found.append((status, told.getvalue().splitlines(), seconds / slower))
print(json.dumps((found, int(re.search(r"VmHWM:\\s*(\\d+)", open("/proc/self/status").read())[1]))))
"""


def measured(runs: List[List[str]]) -> Tuple[List[Tuple[int, List[str], float]], float]:
    """Runs of the command in a process of their own, and its memory in MiB."""
    done = subprocess.run([sys.executable, "-c", CHILD], capture_output=True, check=False,
                          input=json.dumps(runs).encode(),
                          env={**os.environ, "PYTHONPATH": PYTHON})
    assert done.returncode == 0, done.stderr.decode()
    found, memory = json.loads(done.stdout)
    return found, memory / 1024


class HostileCase(unittest.TestCase):
    """A folder, and what is expected of each of them."""

    def setUp(self) -> None:
        folder = tempfile.TemporaryDirectory()
        self.addCleanup(folder.cleanup)
        self.folder = Path(folder.name)

    def assert_refused(self, *words: str) -> str:
        """One line, status 1, nothing left, and within the bounds; the line."""
        return self.assert_all_refused({words[0]: [*words]})[0]

    def assert_all_refused(self, runs: Dict[str, List[str]]) -> List[str]:
        """The same of several, which have names."""
        output = str(self.folder / "out" / "m.toml")
        os.makedirs(os.path.dirname(output), exist_ok=True)
        found, mebibytes = measured([[*words, "-o", output] for words in runs.values()])
        for name, (status, lines, seconds) in zip(runs, found):
            with self.subTest(name):
                self.assertEqual((status, len(lines)), (1, 1), lines[-3:])
                self.assertTrue(lines[0].startswith("overlayd-import: "), lines)
                self.assertLess(seconds, SECONDS)
        self.assertEqual(os.listdir(os.path.dirname(output)), [])
        self.assertLess(mebibytes, MEBIBYTES)
        return [lines[0] for _, lines, _ in found]


class TarTest(HostileCase):
    """Tars, and images in tars."""

    def test_each_is_refused(self) -> None:
        """Each named one."""
        runs = {}
        for number, (name, make) in enumerate(hostile_tars.REFUSED.items()):
            path = self.folder / f"t{number}"
            path.write_bytes(make())
            runs[name] = [str(path)]
        self.assert_all_refused(runs)

    def test_random(self) -> None:
        """Random ones end by a manifest or by a line, and soon."""
        try_random(range(RANDOM), self.fail)

    def test_bounded_lines(self) -> None:
        """What is left out of one object takes some lines."""
        path = self.folder / "t"
        path.write_bytes(tar_of([file("f", attrs={f"security.a{i}": "x" for i in range(5000)})]))
        run = tools.run_import(str(path))
        self.assertEqual(run.status, 0)
        self.assertEqual(len(run.errors), 34)
        self.assertTrue(run.errors[32].endswith("/f: 4,968 things more"), run.errors[32])

    def test_what_makes_a_device(self) -> None:
        """The bridge's own attributes of a source are left out unless they are asked for."""
        path = self.folder / "t"
        value = "1 b 64768 1.000000000 1.000000000 1.000000000"
        path.write_bytes(tar_of([file("f", attrs={"user.overlayd.meta": value})]))
        run = tools.run_import(str(path))
        self.assertNotIn("overlayd.meta", run.manifest)
        self.assertTrue(any("/f: attribute user.overlayd.meta: it is overlayd's own" in line
                            for line in run.errors))
        self.assertIn(value, tools.run_import("--keep-private", str(path)).manifest)

    def test_unpack_limit(self) -> None:
        """What is unpacked is bounded as it is said."""
        import gzip
        path = self.folder / "t.gz"
        path.write_bytes(gzip.compress(tar_of([file("f", b"x" * 50_000)])))
        self.assertEqual(tools.run_import(str(path), "--unpack-limit", "1000000").status, 0)
        self.assertIn("--unpack-limit", self.assert_refused(str(path), "--unpack-limit", "1000"))


class ImageTest(HostileCase):
    """Images in directories."""

    def put(self, data: Any) -> str:
        """A blob of the layout; its digest."""
        raw = data if isinstance(data, bytes) else json.dumps(data).encode()
        digits = hashlib.sha256(raw).hexdigest()
        (self.folder / "blobs/sha256" / digits).write_bytes(raw)
        return f"sha256:{digits}"

    def test_indexes_in_indexes(self) -> None:
        """Two thousand indexes of two thousand images."""
        (self.folder / "blobs/sha256").mkdir(parents=True)
        (self.folder / "oci-layout").write_text("{}")
        image = self.put({"layers": []})
        kind = "application/vnd.oci.image.index.v1+json"
        inner = self.put({"manifests": [{"digest": image}] * 2000})
        (self.folder / "index.json").write_text(json.dumps(
            {"manifests": [{"mediaType": kind, "digest": inner}] * 2000}))
        self.assertIn("more than 4,096 images", self.assert_refused(str(self.folder)))

    def test_digests(self) -> None:
        """A blob with other bytes than its name says."""
        write_layout(self.folder, [tar_of([file("f")])])
        self.assertEqual(tools.run_import(str(self.folder)).status, 0)
        for path in (self.folder / "blobs/sha256").iterdir():
            if b"architecture" in path.read_bytes():
                continue
            kept = path.read_bytes()
            path.write_bytes(kept + b" ")
            with self.subTest(path.name):
                self.assertIn("another digest", self.assert_refused(str(self.folder)))
            path.write_bytes(kept)

    def test_links(self) -> None:
        """A link in an image leads to nothing outside of it."""
        outside = self.folder / "secret.tar"
        outside.write_bytes(tar_of([file("secret", b"secret")]))
        image = self.folder / "image"
        image.mkdir()
        for number, target in enumerate(("../secret.tar", str(outside))):
            listed = [{"Layers": [f"l{number}"]}]
            (image / "manifest.json").write_text(json.dumps(listed))
            (image / f"l{number}").symlink_to(target)
            with self.subTest(target):
                self.assertIn("isn't there", self.assert_refused(f"image:{image}"))
        (image / "in.tar").write_bytes(tar_of([file("inside", b"x")]))
        (image / "ln").symlink_to("in.tar")
        (image / "manifest.json").write_text(json.dumps([{"Layers": ["ln"]}]))
        self.assertIn("/inside", tools.run_import(str(image)).manifest)


class DirectoryTest(HostileCase):
    """Directories that somebody changes meanwhile."""

    def layer(self) -> DirectoryLayer:
        """A layer of the folder, read, but for the bytes."""
        layer = DirectoryLayer(str(self.folder), Report(io.StringIO()), set(), Merge([]), Keep())
        layer.tree()
        return layer

    def assert_changed(self, layer: DirectoryLayer, name: str) -> None:
        """The file isn't read any more."""
        node = layer.tree().children["d"]
        found = node.children[name]  # type: ignore[attr-defined]
        assert isinstance(found, File)
        with self.assertRaises(Refused) as caught:
            list(layer.read_each([found]))
        self.assertIn("it was changed while it was read", str(caught.exception))

    def test_another_object(self) -> None:
        """A link, a fifo or another file in the place of one that was seen; a link in the place of
        its directory."""
        (self.folder / "secret").write_bytes(b"secret")
        (self.folder / "d").mkdir()
        for what in ("link", "fifo", "file"):
            path = self.folder / "d" / what
            path.write_bytes(b"x")
        layer = self.layer()
        for what in ("link", "fifo", "file"):
            (self.folder / "d" / what).rename(self.folder / f"old.{what}")
        (self.folder / "d" / "link").symlink_to(self.folder / "secret")
        os.mkfifo(self.folder / "d" / "fifo")
        (self.folder / "d" / "file").write_bytes(b"y")
        for what in ("link", "fifo", "file"):
            with self.subTest(what):
                self.assert_changed(layer, what)
        (self.folder / "d").rename(self.folder / "e")
        (self.folder / "d").symlink_to(self.folder / "e")
        self.assert_changed(layer, "file")

    def test_deep(self) -> None:
        """More directories in each other than are open at once; and a path that is too long."""
        self.folder.chmod(0o755)
        self.addCleanup(subprocess.run, ["rm", "-rf", str(self.folder / "d")], check=True)
        at = os.open(self.folder, os.O_RDONLY)
        for _ in range(2300):
            os.mkdir("d", dir_fd=at)
            below = os.open("d", os.O_RDONLY, dir_fd=at)
            os.close(at)
            at = below
        os.close(at)
        run = tools.run_import(str(self.folder))
        self.assertEqual((run.status, run.manifest.count('kind = "dir"')), (0, 2047))
        self.assertIn("its path is longer than 4,095 bytes", run.errors[0])


def try_random(seeds: Any, fail: Any) -> float:
    """Imports random tars and images; `fail` hears of the first that doesn't end as it should: by a
    manifest or status 1 and, beside what is left out, one line. The most seconds that one took."""
    longest = 0.0
    with tempfile.TemporaryDirectory() as folder:
        source, output = os.path.join(folder, "t"), os.path.join(folder, "m.toml")
        for seed in seeds:
            Path(source).write_bytes(hostile_tars.hostile(seed))
            before = time.process_time()
            with contextlib.redirect_stderr(io.StringIO()) as errors:
                status = main([source, "-o", output])
            taken = time.process_time() - before
            lines = errors.getvalue().splitlines()
            told = [line for line in lines if not line.startswith("overlayd-import: left out: ")
                    and ": this tar has no end" not in line]
            if status not in (0, 1) or len(told) != 1 or taken > 10 * SECONDS:
                fail(f"seed {seed}: status {status}, {taken:.1f} s, {lines[-3:]}")
            if os.path.exists(output) != (status == 0) or len(os.listdir(folder)) > 2 - status:
                fail(f"seed {seed}: status {status}, and {sorted(os.listdir(folder))} are there")
            if status == 0:
                os.unlink(output)
            longest = max(longest, taken)
    if resource.getrusage(resource.RUSAGE_SELF).ru_maxrss > 1 << 19:
        fail("more than 512 MiB")
    return longest


if __name__ == "__main__":
    if len(sys.argv) == 2 and sys.argv[1].isdigit():
        slowest = try_random(range(int(sys.argv[1])), sys.exit)
        print(f"at most {slowest:.3f} s of the processor for one, "
              f"{resource.getrusage(resource.RUSAGE_SELF).ru_maxrss // 1024} MiB")
    else:
        unittest.main()
