"""Exports of files whose bytes are in a lower layer: they are written whole."""

import contextlib
import io
import os
import tarfile
import tempfile
import unittest
from pathlib import Path

from overlayd import Client
from overlayd.exporter import DirectoryTree
from overlayd.exporter.command import main

from . import import_tools as tools
from . import real_server

# Files of a lower layer, of which one has a name with a word in it that a layer's line has.
MARKED = """redirect_dir = "on"
metacopy = "on"
[[layer]]
[[layer]]
[[layer.entry]]
path = "/f"
kind = "file"
text = "one"
[[layer.entry]]
path = "/g metacopy "
kind = "file"
text = "two"
[[layer.entry]]
path = "/old"
kind = "file"
text = "three"
[[layer.entry]]
path = "/written"
kind = "file"
text = "four"
"""
# What changes them, without the client's number, and the lines of the upper then.
MARKING = """chmod 4600 /f
setattr /f user.k v
link /f /more
chown 1 2 /g\\x20metacopy\\x20
rename /old /new
chmod 600 /written
"""
UPPER = """d 0755 0 0 0 1 /
f 4600 0 0 3 2 /f metacopy /f
f 0644 1 2 3 1 /g\\x20metacopy\\x20 metacopy /g\\x20metacopy\\x20
f 4600 0 0 3 2 /more metacopy /f
f 0644 0 0 5 1 /new metacopy /old
c 0000 0 0 0 1 /old
f 0600 0 0 4 1 /written metacopy /written
"""


def change(client: Client) -> None:
    """The changes of `MARKING` by a client, and a write, which gives one file bytes of its own."""
    client.chmod("/f", 0o4600)
    client.setxattr("/f", "user.k", b"v")
    client.link("/f", "/more")
    client.chown("/g metacopy ", 1, 2)
    client.rename("/old", "/new")
    client.chmod("/written", 0o600)
    with client.open("/written", os.O_WRONLY | os.O_APPEND) as file:
        file.write(b"!")


class MetacopyTest(unittest.TestCase):
    """The program's own server, with `metacopy = "on"`."""

    def setUp(self) -> None:
        reason = real_server.why_not()
        if reason:
            tools.skip(self.id(), reason)

    def test_written_whole(self) -> None:
        """What the lower layer has, with attributes of their own."""
        script = "attach\n" + "".join(f"0 {line}\n" for line in MARKING.splitlines()) + "layer 0\n"
        with tempfile.TemporaryDirectory() as name:
            manifest, tar, up = (Path(name, last) for last in ("m.toml", "layer.tar", "up"))
            manifest.write_text(MARKED)
            played = tools.play(tools.overlayd() or "", manifest, script)
            self.assertEqual(played[7:], UPPER.splitlines())
            with real_server.Server(MARKED) as server:
                with server.client() as client:
                    change(client)
                words = [["--layer", str(tar)]]
                if os.geteuid() == 0:
                    words.append(["--upper", str(up)])
                for form in words:
                    with contextlib.redirect_stderr(io.StringIO()) as errors:
                        self.assertEqual(main([str(manifest), server.path, *form]), 0,
                                         errors.getvalue())
            self.check_tar(tar)
            if os.geteuid() == 0:
                self.check_upper(up)

    def check_tar(self, path: Path) -> None:
        """What the layer of an image has of them."""
        with tarfile.open(path) as tar:
            found = {member.name: (member.mode, member.uid, member.gid,
                                   tar.extractfile(member).read())  # type: ignore[union-attr]
                     for member in tar.getmembers()}
            attrs = tar.getmember("f").pax_headers
        self.assertEqual(found, {
            "f": (0o4600, 0, 0, b"one"), "more": (0o4600, 0, 0, b"one"),
            "g metacopy ": (0o644, 1, 2, b"two"), "new": (0o644, 0, 0, b"three"),
            ".wh.old": (0o644, 0, 0, b""), "written": (0o600, 0, 0, b"four!")})
        self.assertEqual(attrs, {"SCHILY.xattr.user.k": "v"})

    def check_upper(self, path: Path) -> None:
        """What an upper of the kernel's has of them."""
        entries = {entry.path: entry for entry in DirectoryTree(str(path)).entries()}
        self.assertEqual((entries["/f"].mode, entries["/f"].attrs), (0o4600, (("user.k", b"v"),)))
        for name, text in (("f", "one"), ("more", "one"), ("g metacopy ", "two"), ("new", "three"),
                           ("written", "four!")):
            self.assertEqual((path / name).read_text(), text)
            self.assertEqual([attr for attr in os.listxattr(path / name) if "overlay" in attr], [])


if __name__ == "__main__":
    unittest.main()
