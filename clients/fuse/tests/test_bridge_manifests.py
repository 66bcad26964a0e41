"""Manifests as the bridge reads them: blobs by name, and a saved upper over the lower layers."""

import errno
import os
import unittest

from .bridges import of_engine
from .kernel import ROOT
from .test_bridge_inside import EngineCase

SAVED = """[[layer]]

[[layer.entry]]
path = "/up"
kind = "file"
text = "]] # = { \\" [[layer]]"
"""
# What says the same in other words: a base of an upper and two lower layers, and its options.
BASES = {
    "lines": """file_limit = 77 # bytes
blobs = ["a", 'b/c']
[[layer]]  # the upper
[[layer.entry]]
path = "/gone"
kind = "dir"
[[layer]]
entry = [{ path = "/one", kind = "file", text = '''
[[layer]]
''' }]
[[layer]]
[[layer.entry]]
path = "/two"
kind = "file"
text = \"\"\"
[[layer]] \\\"\"\" layer = 5
\"\"\"
""",
    "one array": r"""blobs = ["a", 'b/c']
layer = [ { entry = [{ path = "/gone", kind = "dir" }] }, # the upper
 { entry = [{ path = "/one", kind = "file", text = "[[layer]]\n" }] },
 { entry = [ # more
   { path = "/two", kind = "file", text = "[[layer]] \"\"\" layer = 5\n" },
 ] }, # the last
]
file_limit = 77
""",
    "other keys": """"blobs" = [ "a" , # one
"b\\u002Fc", ] # two
'file_limit' = 77
"layer" = [{ entry = [{ path = "/gone", kind = "dir" }] },
{ "entry" = [{ path = "/one", kind = "file", text = "[[layer]]\\n" }] },
{ entry = [{ path = "/two", kind = "file", text = "[[layer]] \\"\\"\\" layer = 5\\n" }] }]
""",
}


@of_engine
class Manifests(EngineCase):
    def setUp(self):
        super().setUp()
        (self.folder / "a").write_bytes(b"one")
        (self.folder / "b").mkdir()
        (self.folder / "b/c").write_bytes(b"three")

    def going_on(self, base, saved):
        self.manifest(base)
        self.saved.write_text(saved)
        return self.bridge("--upper", str(self.saved))

    def names(self, kernel):
        return [one.name for one in kernel.listing(ROOT)][2:]

    def fault(self, base, *options):
        self.manifest(base)
        done = self.run_it("--manifest", "m.toml", *options, "--kernel", "0")
        self.assertEqual((done.returncode, done.stdout), (1, ""))
        self.assertRegex(done.stderr, r"\Aoverlayd-fuse: [^\n]*\n\Z")
        return done.stderr

    def test_a_saved_upper_takes_the_place_of_the_first_layer(self):
        for told, base in BASES.items():
            with self.subTest(told):
                kernel = self.going_on(base, SAVED).kernel
                self.assertEqual(self.names(kernel), [b"one", b"two", b"up"])
                self.assertEqual(self.bytes_of(kernel, "/one"), b"[[layer]]\n")
                self.assertEqual(self.bytes_of(kernel, "/two"), b'[[layer]] """ layer = 5\n')
                self.assertEqual(self.bytes_of(kernel, "/up"), b']] # = { " [[layer]]')
                entry, opened = kernel.create(ROOT, "big")
                with self.assertRaises(OSError) as refused:
                    kernel.write(entry.nodeid, opened.fh, 77, b"x")
                self.assertEqual(refused.exception.errno, errno.EFBIG)

    def test_a_mount_without_an_upper_gets_one(self):
        kernel = self.going_on("upper = false\nlayer = [{}, {}]", SAVED).kernel
        kernel.mkdir(ROOT, "new", 0o755)
        self.assertEqual(self.names(kernel), [b"new", b"up"])

    def test_what_is_no_saved_upper(self):
        for saved in ("", "layer = 5", SAVED + "[[layer]]\n", "file_limit = 5\n" + SAVED,
                      "[x]\n" + SAVED, "layer = [{}, {}]", "[[layer]]\n" * 18, "\0", "x",
                      SAVED.replace("file", "fifo")):
            with self.subTest(saved=saved[:40]):
                self.saved.write_text(saved)
                told = self.fault("layer = [{}, {}]", "--upper", "saved.toml")
                self.assertIn("saved.toml: ", told)
        self.saved.write_text(SAVED)
        self.assertIn("m.toml: ", self.fault("[layer]\n", "--upper", "saved.toml"))
        told = self.fault('layer = [{}, {entry = [{path = "/x"}]}]', "--upper", "saved.toml")
        self.assertIn("m.toml: layer 1 entry 0: kind", told)
        told = self.fault('upper = false\nlayer = [{}, {entry = [{path = "/x"}]}]',
                          "--upper", "saved.toml")
        self.assertIn("m.toml: layer 1 entry 0: kind", told)

    def test_blobs_that_cannot_be_read(self):
        os.unlink(self.folder / "a")
        base = 'blobs = ["b/c", "a"]\nlayer = [{}, {}]'
        self.assertIn("cannot read blob 1: a: No such file or directory", self.fault(base))
        self.assertIn("cannot read blob 0: b: Is a directory",
                      self.fault('blobs = ["b"]\nlayer = [{}, {}]'))
        limit = "--manifest-limit"
        self.assertIn("cannot read blob 0: b/c: File too large",
                      self.fault(base, limit, str(len(base))))
        self.assertIn("m.toml: File too large", self.fault(base, limit, str(len(base) - 1)))
        self.assertIn("a blob's name with a zero byte",
                      self.fault('blobs = ["b/c\\u0000x"]\nlayer = [{}, {}]'))

    def test_names_of_blobs_in_other_words(self):
        for name in (r'"\u0061"', r'"\U00000061"', "'a'", f'"{self.folder}/a"'):
            self.manifest(f'"blobs" = [ {name} , # one\n]\nlayer = [{{}}, {{ entry = [\n'
                          '{ path = "/f", kind = "file", blob = 0 }] }]')
            self.assertEqual(self.bytes_of(self.bridge().kernel, "/f"), b"one", name)


if __name__ == "__main__":
    unittest.main()
