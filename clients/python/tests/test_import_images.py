"""Images and layer tars made here, with the manifests that they should become."""

import bz2
import gzip
import io
import lzma
import tarfile
import tempfile
import unittest
from pathlib import Path
from typing import List, Sequence

from . import import_tools as tools
from .import_tools import Member, directory, file, saved_image, tar_of, write_layout

EMPTY = "[[layer]]\n"
# What the manifests should be, by hand.
KEPT = r"""[[layer]]

[[layer.entry]]
path = "/"
kind = "dir"
mode = 0o700
uid = 7

[[layer]]

[[layer.entry]]
path = "/"
kind = "dir"
mode = 0o700
uid = 7

[[layer.entry]]
path = "/bin"
kind = "dir"
attrs = [["user.a", "é\n"], ["user.b", "1"]]

[[layer.entry]]
path = "/bin/sh"
kind = "symlink"
target = "tool"

[[layer.entry]]
path = "/bin/other"
kind = "file"
mode = 0o4755
uid = 1
gid = 4294967295
hex = "7f454c46"

[[layer.entry]]
path = "/bin/text"
kind = "file"
text = "say \"hi\\\"\tthere\n\u0001"

[[layer.entry]]
path = "/bin/none"
kind = "file"

[[layer.entry]]
path = "/bin/holes"
kind = "file"
zeros = 5

[[layer.entry]]
path = "/bin/tool"
kind = "link"
to = "/bin/other"
"""
LEFT_OUT_PARENTS = """
[[layer.entry]]
path = "/usr"
kind = "dir"
mode = 0o750
uid = 3

[[layer.entry]]
path = "/usr/lib"
kind = "dir"
attrs = [["user.k", "v"]]

[[layer.entry]]
path = "/usr/lib/x"
kind = "dir"

[[layer.entry]]
path = "/usr/new"
kind = "dir"
opaque = true

[[layer.entry]]
path = "/usr/opq"
kind = "dir"
mode = 0o500
opaque = true

[[layer.entry]]
path = "/usr/lib/x/y"
kind = "file"

[[layer.entry]]
path = "/usr/new/z"
kind = "file"
"""
LINKED = """
[[layer.entry]]
path = "/bin"
kind = "dir"
mode = 0o751

[[layer.entry]]
path = "/bin/gone"
kind = "whiteout"

[[layer.entry]]
path = "/sbin"
kind = "dir"

[[layer.entry]]
path = "/bin/a"
kind = "file"
mode = 0o755
text = "tool"

[[layer.entry]]
path = "/sbin/d"
kind = "file"
mode = 0o600
text = "g"

[[layer.entry]]
path = "/sbin/b"
kind = "link"
to = "/bin/a"

[[layer.entry]]
path = "/sbin/c"
kind = "link"
to = "/bin/a"
"""
BOTH = """[[layer]]

[[layer]]

[[layer.entry]]
path = "/a"
kind = "dir"

[[layer.entry]]
path = "/a/b"
kind = "file"
text = "high"

[[layer]]

[[layer.entry]]
path = "/a"
kind = "dir"

[[layer.entry]]
path = "/a/b"
kind = "file"
text = "low"
"""
LOWEST = """[[layer]]

[[layer.entry]]
path = "/d3"
kind = "dir"

[[layer.entry]]
path = "/d4"
kind = "dir"

[[layer.entry]]
path = "/d3/f"
kind = "file"
text = "3"

[[layer.entry]]
path = "/d4/f"
kind = "file"
text = "4"
"""


def link(name: str, to: str) -> Member:
    """A hard link."""
    return Member(name, tarfile.LNKTYPE, link=to)


def symlink(name: str, to: str) -> Member:
    """A symbolic link."""
    return Member(name, tarfile.SYMTYPE, link=to, mode=0o777)


class ImageTest(unittest.TestCase):
    """Whole images and single layers."""

    maxDiff = None

    def setUp(self) -> None:
        folder = tempfile.TemporaryDirectory()
        self.addCleanup(folder.cleanup)
        self.folder = Path(folder.name)

    def put(self, name: str, data: bytes) -> str:
        """A file of the test's folder; its path."""
        path = self.folder / name
        path.write_bytes(data)
        return str(path)

    def manifest_of(self, layers: Sequence[Sequence[Member]]) -> str:
        """The manifest of an image of these layers, from the lowest; nothing is left out."""
        run = tools.run_import(self.put("image.tar", saved_image([tar_of(m) for m in layers])))
        self.assertEqual(run.status, 0, run.errors)
        self.assertIn("nothing left out but times", run.errors[-1])
        return run.manifest

    def test_all_that_an_image_keeps(self) -> None:
        """Modes, owners, user attributes, links, and bytes in their three forms."""
        layer = [
            directory("./", mode=0o700, uid=7),
            directory("./bin/", attrs={"user.b": "1", "user.a": "\u00e9\n"}),
            file("./bin/tool", b"\x7fELF", mode=0o4755, uid=1, gid=4294967295),
            file("./bin/text", b'say "hi\\"\tthere\n\x01'),
            file("./bin/none"),
            file("./bin/holes", b"\0" * 5),
            link("./bin/other", "./bin/tool"),
            symlink("./bin/sh", "tool"),
        ]
        self.assertEqual(self.manifest_of([layer]), KEPT)

    def test_marks(self) -> None:
        """Whiteouts, opaque directories, and whiteouts beside what the layer itself has."""
        base = [directory("etc/"), file("etc/motd"), directory("etc/old/"), file("etc/old/a"),
                directory("etc/new/"), file("etc/new/b"), file("etc/name", b"x")]
        top = [directory("etc/"), file("etc/.wh.motd"),
               directory("etc/old/", mode=0o711), file("etc/old/.wh..wh..opq"),
               file("etc/.wh.new"), directory("etc/new/"), file("etc/new/c"),
               file("etc/name", b"y"), file("etc/.wh.name")]
        manifest = self.manifest_of([base, top])
        self.assertEqual(manifest.split("\n[[layer]]\n")[1], """
[[layer.entry]]
path = "/etc"
kind = "dir"

[[layer.entry]]
path = "/etc/motd"
kind = "whiteout"

[[layer.entry]]
path = "/etc/new"
kind = "dir"
opaque = true

[[layer.entry]]
path = "/etc/old"
kind = "dir"
mode = 0o711
opaque = true

[[layer.entry]]
path = "/etc/new/c"
kind = "file"

[[layer.entry]]
path = "/etc/name"
kind = "file"
text = "y"
""")

    def test_parents_that_are_left_out(self) -> None:
        """They are as the layers below have them; or mode 0755 of 0:0 where nothing is there, or
        where the layer's own whiteout hides what is."""
        base = [directory("", mode=0o711, gid=9), directory("usr/", mode=0o750, uid=3),
                directory("usr/lib/", attrs={"user.k": "v"}), directory("usr/new/", mode=0o700),
                directory("usr/opq/", mode=0o500)]
        top = [file("usr/lib/x/y"), file("usr/.wh.new"), file("usr/new/z"),
               file("usr/opq/.wh..wh..opq")]
        upper = """
[[layer.entry]]
path = "/"
kind = "dir"
mode = 0o711
gid = 9
"""
        manifest = self.manifest_of([base, top])
        self.assertEqual(manifest.split("\n[[layer]]\n")[:2],
                         ["[[layer]]\n" + upper, upper + LEFT_OUT_PARENTS])

    def test_hard_links_into_lower_layers(self) -> None:
        """The file is copied up to its own name, unless the layer hides that, and linked; a file
        that a middle layer has replaced is that layer's."""
        base = [directory("bin/", mode=0o751), file("bin/a", b"old", uid=5),
                file("bin/gone", b"g", mode=0o600)]
        middle = [directory("bin/", mode=0o751), file("bin/a", b"tool", mode=0o755)]
        top = [directory("sbin/"), link("sbin/b", "bin/a"), link("sbin/c", "bin/a"),
               file("bin/.wh.gone"), link("sbin/d", "bin/gone")]
        manifest = self.manifest_of([base, middle, top])
        self.assertEqual(manifest.split("\n[[layer]]\n")[1], LINKED)

    def test_twenty_layers(self) -> None:
        """Layer N adds /dN and takes away what layer N-2 added; of the lowest five one is made."""
        layers: List[List[Member]] = []
        for number in range(20):
            members = [directory(f"d{number}/"), file(f"d{number}/f", b"%d" % number)]
            if number >= 2:
                members.append(file(f".wh.d{number - 2}"))
            layers.append(members)
        run = tools.run_import(self.put("image.tar", saved_image([tar_of(m) for m in layers])))
        self.assertEqual(run.status, 0, run.errors)
        self.assertEqual(run.errors[0], "overlayd-import: 20 lower layers, of which 16 fit: the "
                                        "lowest 5 are made one")
        expected = [EMPTY]
        for number in range(19, 4, -1):
            # names by their bytes: d10 stands before d8, but d9 after it
            added = f'\n[[layer.entry]]\npath = "/d{number}"\nkind = "dir"\n'
            hidden = f'\n[[layer.entry]]\npath = "/d{number - 2}"\nkind = "whiteout"\n'
            plain = added + hidden if number in (10, 11) else hidden + added
            expected.append(EMPTY + plain + f'\n[[layer.entry]]\npath = "/d{number}/f"\n'
                            f'kind = "file"\ntext = "{number}"\n')
        expected.append(LOWEST)
        self.assertEqual(run.manifest, "\n".join(expected))

    def test_two_copies_of_one_file(self) -> None:
        """Of layers that are made one, two files come from one place of a compressed tar."""
        layers = [[file("a", b"one"), file("z", b"zzz")], [link("b", "a")],
                  [file(".wh.a"), link("c", "a")]]
        layers += [[directory("top/")] for _ in range(15)]
        write_layout(self.folder / "layout", [tar_of(members) for members in layers])
        run = tools.run_import(str(self.folder / "layout"))
        self.assertEqual(run.status, 0, run.errors)
        self.assertEqual(run.manifest.split("[[layer]]\n")[-1], """
[[layer.entry]]
path = "/b"
kind = "file"
text = "one"

[[layer.entry]]
path = "/c"
kind = "file"
text = "one"

[[layer.entry]]
path = "/z"
kind = "file"
text = "zzz"
""")

    def test_an_upper_over_an_image(self) -> None:
        """The layers of an image are lower ones where it isn't the first source; a tar takes what
        it leaves out from a directory below."""
        image = self.put("image.tar", saved_image([tar_of([file("low")])]))
        upper = self.put("upper.tar", tar_of([file("d/up")]))
        (self.folder / "plain" / "d").mkdir(parents=True)
        (self.folder / "plain" / "d").chmod(0o1777)
        self.assertEqual(
            tools.run_import(upper, image).manifest.split("[[layer]]\n"),
            ["", '\n[[layer.entry]]\npath = "/d"\nkind = "dir"\n'
                 '\n[[layer.entry]]\npath = "/d/up"\nkind = "file"\n\n',
             '\n[[layer.entry]]\npath = "/low"\nkind = "file"\n'])
        self.assertIn('path = "/d"\nkind = "dir"\nmode = 0o1777\n',
                      tools.run_import(upper, str(self.folder / "plain")).manifest.split(
                          "[[layer]]\n")[1])

    def test_read_only(self) -> None:
        """The layers of an image alone; an empty one is below where it has one."""
        low, high = tar_of([file("low")]), tar_of([file("high")])
        wanted = ['\n[[layer.entry]]\npath = "/high"\nkind = "file"\n\n',
                  '\n[[layer.entry]]\npath = "/low"\nkind = "file"\n']
        run = tools.run_import(self.put("two.tar", saved_image([low, high])), "--read-only")
        self.assertEqual(run.manifest.split("[[layer]]\n"), ["upper = false\n\n", *wanted])
        run = tools.run_import(self.put("one.tar", saved_image([high])), "--read-only")
        self.assertEqual(run.manifest.split("[[layer]]\n"), ["upper = false\n\n", wanted[0], ""])

    def test_sparse(self) -> None:
        """The stretches of a sparse file stand at their places."""
        info = tarfile.TarInfo("s")
        info.size = 5
        info.pax_headers = {"GNU.sparse.map": "2,3,7,2", "GNU.sparse.size": "10",
                            "GNU.sparse.numblocks": "2"}
        path = str(self.folder / "sparse.tar")
        with tarfile.open(path, "w", format=tarfile.PAX_FORMAT) as tar:
            tar.addfile(info, io.BytesIO(b"abcde"))
        self.assertIn('hex = "000061626300006465' + '00"', tools.run_import(path).manifest)

    def test_opaque_root(self) -> None:
        """A layer whose root is opaque hides all layers below it."""
        layers = [[file("a")], [file("b"), file(".wh..wh..opq")], [file("c")]]
        self.assertEqual(
            tools.run_import(self.put("image.tar", saved_image([tar_of(m) for m in layers])))
            .manifest, """[[layer]]

[[layer]]

[[layer.entry]]
path = "/c"
kind = "file"

[[layer]]

[[layer.entry]]
path = "/b"
kind = "file"
""")

    def test_forms_of_an_image(self) -> None:
        """The same image in all its forms is the same manifest."""
        layers = [tar_of([directory("a/"), file("a/b", b"low")]),
                  tar_of([directory("a/"), file("a/b", b"high")])]
        saved = saved_image(layers)
        write_layout(self.folder / "layout", layers)
        with tarfile.open(self.folder / "layout.tar", "w") as tar:
            tar.add(self.folder / "layout", ".")
        with tarfile.open(self.put("saved.tar", saved)) as tar:
            for member in tar:
                path = self.folder / "saved" / member.name
                path.parent.mkdir(parents=True, exist_ok=True)
                stream = tar.extractfile(member)
                assert stream is not None
                path.write_bytes(stream.read())
        sources = ["layout", "layout.tar", "saved", "saved.tar"]
        for name, form in (("gz", gzip.compress), ("bz2", bz2.compress), ("xz", lzma.compress)):
            self.put(f"saved.tar.{name}", form(saved))
            sources.append(f"saved.tar.{name}")
        for source in sources:
            with self.subTest(source=source):
                self.assertEqual(tools.run_import(str(self.folder / source)).manifest, BOTH)

    def test_choice_of_an_image(self) -> None:
        """An archive of several images needs a name."""
        both = self.put("two.tar", tar_of([
            file("one.tar", tar_of([file("1")])), file("two.tar", tar_of([file("2")])),
            file("manifest.json", b'[{"RepoTags": ["x:1"], "Layers": ["one.tar"]},'
                                  b' {"RepoTags": ["x:2"], "Layers": ["two.tar"]}]')]))
        run = tools.run_import(both)
        self.assertEqual(run.status, 1)
        self.assertEqual(run.errors, [f"overlayd-import: {both}: it has 2 images: x:1, x:2; say "
                                      "which by --image or --platform"])
        self.assertIn('path = "/2"', tools.run_import(both, "--image", "x:2").manifest)
        write_layout(self.folder / "layout", [tar_of([file("3")])], "linux/arm64")
        layout = str(self.folder / "layout")
        self.assertIn('path = "/3"',
                      tools.run_import(layout, "--platform", "linux/arm64").manifest)
        self.assertEqual(tools.run_import(layout, "--platform", "linux/amd64").errors,
                         [f"overlayd-import: {layout}: it has no image of that name and platform"])

    def test_layers_of_tars(self) -> None:
        """The first source is the upper; a tar may be compressed, be it in several parts."""
        whole = tar_of([directory("a/"), file("a/f", b"1234567890")])
        lower = self.put("lower.tgz", gzip.compress(whole[:700]) + gzip.compress(whole[700:]))
        upper = self.put("upper.tar", tar_of([file("a/.wh.f")]))
        self.assertEqual(tools.run_import(upper, lower).manifest, """[[layer]]

[[layer.entry]]
path = "/a"
kind = "dir"

[[layer.entry]]
path = "/a/f"
kind = "whiteout"

[[layer]]

[[layer.entry]]
path = "/a"
kind = "dir"

[[layer.entry]]
path = "/a/f"
kind = "file"
text = "1234567890"
""")

    def test_a_tar_says_things_twice(self) -> None:
        """The last member of a name counts; a directory keeps what is in it."""
        layer = [directory("d/", mode=0o700), file("d/f", b"first"), directory("d/"),
                 file("d/f", b"second"), directory("e/"), file("e/f"), file("e", b"now a file")]
        self.assertEqual(self.manifest_of([layer]), """[[layer]]

[[layer]]

[[layer.entry]]
path = "/d"
kind = "dir"

[[layer.entry]]
path = "/d/f"
kind = "file"
text = "second"

[[layer.entry]]
path = "/e"
kind = "file"
text = "now a file"
""")

    def test_tars_that_are_not_whole(self) -> None:
        """They are refused in one line that names them."""
        whole = tar_of([file("a", b"x" * 5000), file("b", b"y" * 5000)])
        broken = bytearray(whole)
        broken[5640:5740] = b"\xff" * 100
        for name, data in (("cut.tar", whole[:3000]), ("cut.tgz", gzip.compress(whole)[:60]),
                           ("cut.xz", lzma.compress(whole)[:60]), ("none", b"no tar" * 200),
                           ("broken.tar", bytes(broken)), ("empty", b"")):
            with self.subTest(name=name):
                path = self.put(name, data)
                run = tools.run_import(path)
                self.assertEqual(run.status, 1)
                self.assertEqual(len(run.errors), 1)
                self.assertTrue(run.errors[0].startswith(
                    f"overlayd-import: {path}: no tar, or not a whole one: "), run.errors[0])
