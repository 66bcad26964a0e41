"""A Debian root on a mount: packages come and go in a chroot, gcc builds, and what changed comes
out as a layer. The variable DEBIAN names the root, as debootstrap has made it:

    debootstrap --variant=minbase --include=gcc,libc6-dev bookworm DIRECTORY

With the variable SOURCE, which names a source package of the archive that the root is of, a
compiler is installed from there, and the package is built and tested: for a mount with the engine
inside, and a machine with a network.
"""

import contextlib
import hashlib
import io
import os
import pathlib
import shutil
import stat
import subprocess
import unittest

import real_server
from overlayd.exporter.command import main as export_command
from overlayd.importer.command import main as import_command

from .bridges import INSIDE, of_sockets
from .kernel import WAIT
from .mounts import Mounted, times, tree, why_not

DEBIAN, SOURCE = os.environ.get("DEBIAN"), os.environ.get("SOURCE")
PATIENCE = WAIT * 30
FILES_GROW_TO = 1 << 28
ENTER = """set -eu
mount --bind /dev "$1/dev"
mount -t proc proc "$1/proc"
exec env -i PATH=/usr/sbin:/usr/bin:/sbin:/bin LC_ALL=C DEBIAN_FRONTEND=noninteractive \\
    chroot "$1" sh -euc "$2"
"""
CONTROL = """Package: overlay-hello
Version: 1.0
Architecture: all
Maintainer: nobody <nobody@example.org>
Description: a script
"""
BUILD = """
    sed 's/^deb /deb-src /' /etc/apt/sources.list > /etc/apt/sources.list.d/sources.list
    apt-get -q update
    apt-get -q install -y --no-install-recommends build-essential
    apt-get -q build-dep -y --no-install-recommends "$SOURCE"
    mkdir /srv/build; cd /srv/build; apt-get -q source "$SOURCE"
    cd "$SOURCE"-*/; dpkg-buildpackage -us -uc -b
    dpkg --audit
"""
PACKAGES = """{control}Filename: ./hello.deb
Size: {size}
SHA256: {digest}

"""


def largest(root):
    """How many bytes the largest file below a directory has."""
    return max(os.lstat(os.path.join(folder, name)).st_size
               for folder, _, names in os.walk(root) for name in names)


def imported(output, *sources):
    with contextlib.redirect_stderr(io.StringIO()) as told:
        status = import_command(["-q", "--devices", "--xattrs", "--redirect-dir", "on",
                                 "--history", "1000000",
                                 "--file-limit", str(max(FILES_GROW_TO, largest(DEBIAN))),
                                 *sources, "-o", output])
    if status != 0:
        raise AssertionError(told.getvalue())
    return pathlib.Path(output).read_text("utf-8")


def changed(root, links=False):
    """When the bytes or names of each object were changed; of links, where that is asked for."""
    return {path: change for path, (change, _) in times(root, links=links).items()}


class Root(Mounted):
    """A mount of a root, or of layers over it."""

    def __init__(self, *sources):
        self.sources = sources
        super().__init__(lambda base: None, "--times", "--devices", "-o", "dev,suid",
                         "--manifest-limit", str(1 << 33), overlay=False)

    def serve(self, base):
        text = imported(self.path("mount.toml"), *self.sources)
        if INSIDE:
            return None
        server = real_server.Server(text)
        server.client().close()
        return server

    def run(self, script):
        """What a shell prints that has the mount for its root."""
        done = subprocess.run(["unshare", "--mount", "--propagation", "private", "sh", "-c", ENTER,
                               "sh", self.here, script], stdin=subprocess.DEVNULL, text=True,
                              stdout=subprocess.PIPE, stderr=subprocess.STDOUT, timeout=PATIENCE,
                              check=False)
        if done.returncode != 0:
            raise AssertionError(f"status {done.returncode}: {done.stdout}")
        return done.stdout


class Debian(unittest.TestCase):
    root = None

    @classmethod
    def setUpClass(cls):
        reason = why_not() or (None if DEBIAN else "DEBIAN names no root of a Debian system")
        if reason:
            raise unittest.SkipTest(reason)
        cls.root = Root(DEBIAN)

    @classmethod
    def tearDownClass(cls):
        if cls.root:
            cls.root.end()

    def package(self):
        """Makes a package and a repository of it, at /srv/packages."""
        self.root.run(f"""
            mkdir -p /srv/packages/hello/DEBIAN /srv/packages/hello/usr/bin
            cd /srv/packages
            printf '%s' '{CONTROL}' > hello/DEBIAN/control
            printf '#!/bin/sh\\necho hello from a package\\n' > hello/usr/bin/overlay-hello
            chmod 755 hello/usr/bin/overlay-hello
            dpkg-deb --build --root-owner-group hello hello.deb
            rm -r hello""")
        folder = pathlib.Path(self.root.here, "srv", "packages")
        data = (folder / "hello.deb").read_bytes()
        (folder / "Packages").write_text(PACKAGES.format(
            control=CONTROL, size=len(data), digest=hashlib.sha256(data).hexdigest()))

    def test_a_package_comes_and_goes(self):
        self.package()
        told = self.root.run("""
            dpkg -i /srv/packages/hello.deb
            overlay-hello
            dpkg --verify overlay-hello
            dpkg -r overlay-hello
            test ! -e /usr/bin/overlay-hello && echo gone
            dpkg --audit""")
        self.assertIn("\nhello from a package\n", told)
        self.assertEqual(told.splitlines()[-1], "gone")

    def test_an_archive_of_local_files(self):
        self.package()
        told = self.root.run("""
            mkdir /tmp/lists
            echo 'deb [trusted=yes] file:/srv/packages ./' > /tmp/lists/local.list
            only="-o Dir::Etc::sourcelist=/tmp/lists/local.list -o Dir::Etc::sourceparts=/none"
            apt-get $only update
            apt-get $only install -y overlay-hello
            overlay-hello
            apt-get $only remove -y overlay-hello
            test ! -e /usr/bin/overlay-hello && echo gone
            rm -r /tmp/lists""")
        self.assertIn("\nhello from a package\n", told)
        self.assertEqual(told.splitlines()[-1], "gone")

    def test_what_packages_have_is_right(self):
        """As right as in the root itself."""
        own = Root(DEBIAN)
        self.addCleanup(own.end)
        there = subprocess.run(["chroot", DEBIAN, "dpkg", "--verify"], stdout=subprocess.PIPE,
                               text=True, check=False)
        self.assertEqual(own.run("dpkg --verify || true"), there.stdout)

    def test_gcc(self):
        if not os.path.exists(os.path.join(DEBIAN, "usr", "bin", "gcc")):
            self.skipTest("the root has no gcc")
        told = self.root.run("""
            cd /root
            printf '#include <stdio.h>\\nint main(void) { return puts("built") < 0; }\\n' > hello.c
            gcc -O2 -o hello hello.c
            ./hello""")
        self.assertEqual(told, "built\n")

    CHANGES = """
            rm -r /usr/share/doc/base-files
            echo changed >> /etc/hostname.changed
            mv /etc/skel /etc/skel.moved
            mkdir /etc/skel; echo new > /etc/skel/new
            chmod 700 /usr/share/base-files
            ln -s hostname.changed /etc/link; cp /usr/bin/perl /root/perl
            rm /usr/bin/perl; cp -a /root/perl /usr/bin/perl"""

    @unittest.skipUnless(INSIDE, "nothing is saved by a server's mount")
    def test_what_was_saved_is_the_same_tree(self):
        """On a new mount, and as a layer over the import."""
        self.root.run(self.CHANGES)
        before = tree(self.root.here, link_owners=False), times(self.root.here)
        self.root.remount()
        self.assertEqual((tree(self.root.here, link_owners=False), times(self.root.here)), before)
        again = self.over("--manifest", self.root.path("saved.toml"))
        self.assertEqual(tree(again.here, link_owners=False), before[0])
        self.assertEqual(changed(again.here), changed(self.root.here))

    @unittest.skipUnless(INSIDE and SOURCE, "SOURCE names no package to build inside")
    def test_a_source_package_is_built_and_tested(self):
        """What was saved is the same tree on a new mount, with its times."""
        built = Root(DEBIAN)
        self.addCleanup(built.end)
        told = built.run(f"SOURCE={SOURCE}\n{BUILD}")
        self.assertRegex(told, r"(?m)^# FAIL: +0$")
        self.assertTrue(list(pathlib.Path(built.here, "srv", "build").glob("*.deb")), told[-999:])
        before = tree(built.here, link_owners=False), times(built.here)
        built.remount()
        after = tree(built.here, link_owners=False), times(built.here)
        for here, there in zip(before, after):
            self.assertEqual(sorted(here), sorted(there))
            self.assertEqual([path for path in here if here[path] != there[path]], [])

    @of_sockets
    def test_the_export_over_the_import_is_the_same_tree(self):
        self.root.run(self.CHANGES)
        again = self.over(*self.changes())
        self.assertEqual(tree(again.here), tree(self.root.here))
        self.assertEqual(changed(again.here), changed(self.root.here))

    @of_sockets
    @unittest.skipUnless(shutil.which("umoci"), "no umoci")
    def test_umoci_over_the_base_is_the_same_tree(self):
        """A package comes onto the mount; what umoci makes of the root and the layer over it is as
        the mount is, with times, owners, links and devices."""
        self.package()
        self.root.run("""
            dpkg -i /srv/packages/hello.deb
            rm -r /usr/share/doc/apt /usr/bin/yes; mv /usr/share/pam /usr/share/pam.moved
            mknod /root/null c 1 3; mkfifo -m 600 /root/fifo; chown 7:8 /root/null
            ln /usr/bin/env /usr/bin/env.too; ln -s env.too /usr/bin/env.link
            touch -h -d @1.123456789 /usr/bin/env.link /etc/issue; chown -h 7:8 /etc/issue""")
        layout, manifest = self.root.path("layout"), self.root.path("mount.toml")
        head, _, base = pathlib.Path(manifest).read_text("utf-8").split("[[layer]]", 2)
        whole, nothing = self.root.path("whole.toml"), self.root.path("nothing.toml")
        pathlib.Path(whole).write_text(f"{head}[[layer]]{base}", "utf-8")
        pathlib.Path(nothing).write_text("[[layer]]\n[[layer]]\n")
        self.export(nothing, "--manifest", whole, "--image-out", f"{layout}:base")
        self.export(manifest, *self.changes(), "--image-out", f"{layout}:base", "--as", "new")
        subprocess.run(["umoci", "unpack", "--image", f"{layout}:new", self.root.path("bundle")],
                       check=True, capture_output=True)
        found, wanted = os.path.join(self.root.path("bundle"), "rootfs"), self.root.here
        self.assertEqual(os.lstat(found + "/usr/bin/env.link").st_mtime_ns, 1_123_456_789)
        self.assertEqual(os.lstat(found + "/root/null").st_rdev, os.makedev(1, 3))
        self.assertTrue(os.path.samefile(found + "/usr/bin/env", found + "/usr/bin/env.too"))
        self.same_but_for_counts(tree(found), tree(wanted))
        self.assertEqual(changed(found, links=True), changed(wanted, links=True))

    def same_but_for_counts(self, found, wanted):
        """On the mount a name of the root's keeps the count of its file when another name of that
        was copied up, as on overlayfs; what umoci makes has as many as there are."""
        def counted(row):
            return row[5] if stat.S_ISREG(int(row[0], 0)) else 0

        def others(row):
            return [*row[:5], *row[6:]] if counted(row) else row
        self.assertEqual(found.keys(), wanted.keys())
        for path, row in found.items():
            self.assertEqual(others(row), others(wanted[path]), path)
            self.assertLessEqual(counted(row), counted(wanted[path]), path)

    def changes(self):
        """The words by which an export reads what was changed."""
        subprocess.run(["sync", "-f", self.root.here], check=True)
        return (self.root.server.path,)

    def export(self, *words):
        with contextlib.redirect_stderr(io.StringIO()) as told:
            status = export_command([*words])
        self.assertEqual(status, 0, told.getvalue())

    def over(self, *source):
        """A mount of the layer of what was changed, over the root."""
        layer = self.root.path("change.tar")
        self.export(self.root.path("mount.toml"), *source, "--layer", layer)
        again = Root(layer, DEBIAN)
        self.addCleanup(again.end)
        return again


if __name__ == "__main__":
    unittest.main()
