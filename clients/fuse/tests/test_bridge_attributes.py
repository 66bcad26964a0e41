"""Attributes through the bridge: of users, of other classes, and of what has no name."""

import errno
import os
import unittest

from .bridges import Bridge, INSIDE, ServerCase
from .kernel import ROOT, SET_MODE, SET_UID

CREATE, REPLACE = 1, 2
TREE = """layer = [{}, { entry = [{ path = "/f", kind = "file", text = "0123456789" }] }]"""


class Attributes(ServerCase):
    MANIFEST = TREE

    def test_attributes(self):
        server = self.served()
        kernel = self.bridge(server)
        f = kernel.walk("/f").nodeid
        self.assertEqual(kernel.listxattr(f), [])
        kernel.setxattr(f, "user.a", b"one")
        kernel.setxattr(f, "user.b", b"")
        self.assertEqual(kernel.listxattr(f), [b"user.a", b"user.b"])
        self.assertEqual(kernel.getxattr(f, "user.a"), b"one")
        self.assertEqual(kernel.getxattr(f, "user.a", 0), 3)
        self.assertEqual(kernel.listxattr(f, 0), 14)
        self.refused(errno.ERANGE, kernel.getxattr, f, "user.a", 2)
        self.refused(errno.ERANGE, kernel.listxattr, f, 13)
        self.refused(errno.ENODATA, kernel.getxattr, f, "user.c")
        kernel.removexattr(f, "user.a")
        self.refused(errno.ENODATA, kernel.removexattr, f, "user.a")
        self.assertEqual(self.client(server).listxattr("/f"), ["user.b"])

    def test_what_must_or_must_not_be_there(self):
        kernel = self.bridge(self.served())
        f = kernel.walk("/f").nodeid
        self.refused(errno.ENODATA, kernel.setxattr, f, "user.a", b"x", REPLACE)
        kernel.setxattr(f, "user.a", b"one", CREATE)
        self.refused(errno.EEXIST, kernel.setxattr, f, "user.a", b"x", CREATE)
        kernel.setxattr(f, "user.a", b"two", REPLACE)
        self.assertEqual(kernel.getxattr(f, "user.a"), b"two")

    def test_what_has_no_room(self):
        kernel = self.bridge(self.served())
        f = kernel.walk("/f").nodeid
        kernel.setxattr(f, "user.a", bytes(1024))
        self.refused(errno.ENOSPC, kernel.setxattr, f, "user.b", bytes(1025))
        self.refused(errno.ENOSPC, kernel.setxattr, f, "user.b", bytes(65536))
        for number in range(63):
            kernel.setxattr(f, f"user.{number:0250}", b"")
        self.refused(errno.ENOSPC, kernel.setxattr, f, "user.b", b"")
        self.assertEqual(len(kernel.listxattr(f)), 64)

    def test_other_names(self):
        kernel = self.bridge(self.served())
        f = kernel.walk("/f").nodeid
        for name in ("system.posix_acl_access", "system.posix_acl_default", "other.a", "a",
                     "security.selinux"):
            self.refused(errno.EOPNOTSUPP, kernel.getxattr, f, name)
            self.refused(errno.EOPNOTSUPP, kernel.setxattr, f, name, b"x")
            self.refused(errno.EOPNOTSUPP, kernel.removexattr, f, name)

    def test_a_link_has_none(self):
        kernel = self.bridge(self.served())
        link = kernel.symlink(ROOT, "l", "f").nodeid
        self.assertEqual(kernel.listxattr(link), [])

    def test_the_bridges_own_attribute_is_nobody_elses(self):
        server = self.served()
        kernel = self.bridge(server, "--times")
        f = kernel.walk("/f").nodeid
        kernel.setattr(f, 32, mtime=(5, 0))
        self.assertEqual(self.client(server).listxattr("/f"), ["user.overlayd.meta"])
        self.assertEqual(kernel.listxattr(f), [])
        self.refused(errno.ENODATA, kernel.getxattr, f, "user.overlayd.meta")
        self.refused(errno.EPERM, kernel.setxattr, f, "user.overlayd.meta", b"")
        self.refused(errno.ENODATA, kernel.removexattr, f, "user.overlayd.meta")

    def test_attributes_of_other_classes(self):
        """They are kept under names that no program can set by itself."""
        server = self.served()
        capability = bytes.fromhex("0100000200040000000000000000000000000000")
        with Bridge(server.path) as kernel:
            f = kernel.walk("/f").nodeid
            self.refused(errno.ENODATA, kernel.getxattr, f, "security.capability")
            kernel.setxattr(f, "security.capability", capability)
            kernel.setxattr(f, "trusted.t", b"T", CREATE)
            self.refused(errno.EEXIST, kernel.setxattr, f, "trusted.t", b"T", CREATE)
            self.refused(errno.ENOSPC, kernel.setxattr, f, "trusted." + "t" * 240, b"T")
            self.refused(errno.ENOSPC, kernel.setxattr, f, "trusted.u", bytes(513))
        client = self.client(server)
        self.assertEqual(client.listxattr("/f"), [
            "user.overlayd.xattr.security.capability", "user.overlayd.xattr.trusted.t"])
        self.assertEqual(client.getxattr("/f", "user.overlayd.xattr.trusted.t"), b"54")
        self.assertEqual(client.getxattr("/f", "user.overlayd.xattr.security.capability"),
                         b"0100000200040000000000000000000000000000")
        with Bridge(server.path) as kernel:
            f = kernel.walk("/f").nodeid
            self.assertEqual(kernel.getxattr(f, "security.capability"), capability)
            self.assertEqual(kernel.listxattr(f), [b"security.capability", b"trusted.t"])
            kernel.uid = 1000
            self.assertEqual(kernel.listxattr(f), [b"security.capability"])
            for name in ("user.overlayd.xattr.security.capability", "user.overlayd.any"):
                self.refused(errno.EPERM, kernel.setxattr, f, name, b"x")
                self.refused(errno.ENODATA, kernel.getxattr, f, name)
                self.refused(errno.ENODATA, kernel.removexattr, f, name)
            kernel.uid = 0
            kernel.removexattr(f, "security.capability")
            self.refused(errno.ENODATA, kernel.getxattr, f, "security.capability")

    def test_what_others_wrote_under_the_bridges_names(self):
        """Names of these two classes alone are shown, inside also those of users, and values of the
        form that a bridge writes."""
        server = self.served()
        client = self.client(server)
        for name in ("user.a", "", "system.posix_acl_access", "security.s"):
            client.setxattr("/f", "user.overlayd.xattr." + name, b"x")
        client.setxattr("/f", "user.overlayd.xattr.trusted.t", b"5a00ff")
        client.setxattr("/f", "user.overlayd.xattr.trusted.odd", b"5a0")
        client.setxattr("/f", "user.overlayd.xattr.trusted.upper", b"5A")
        kernel = self.bridge(server)
        f = kernel.walk("/f").nodeid
        self.assertEqual(kernel.listxattr(f), [b"user.a"] * INSIDE + [
            b"security.s", b"trusted.t", b"trusted.odd", b"trusted.upper"])
        self.assertEqual(kernel.getxattr(f, "trusted.t"), b"Z\0\xff")
        for name in ("security.s", "trusted.odd", "trusted.upper"):
            self.refused(errno.ENODATA, kernel.getxattr, f, name)
        self.refused(errno.EOPNOTSUPP, kernel.getxattr, f, "system.posix_acl_access")
        self.refused(errno.ENODATA, kernel.getxattr, f, "user.a")

    def test_attributes_of_what_has_no_name_any_more(self):
        for options in ((), ("--shared",)):
            for gone in ("unlink", "rename"):
                self.check_nameless(self.bridge(self.served(), *options), gone)

    def check_nameless(self, kernel, gone):
        f = kernel.walk("/f").nodeid
        kernel.setxattr(f, "user.a", b"one")
        kernel.setxattr(f, "security.s", bytes(512))
        fh = kernel.open(f, os.O_RDWR).fh
        kernel.create(ROOT, "n")
        if gone == "unlink":
            kernel.unlink(ROOT, "f")
        else:
            kernel.rename(ROOT, "n", ROOT, "f")
        self.assertEqual(sorted(kernel.listxattr(f)), [b"security.s", b"user.a"])
        self.assertEqual(kernel.getxattr(f, "user.a"), b"one")
        self.assertEqual(kernel.getxattr(f, "security.s"), bytes(512))
        self.refused(errno.EEXIST, kernel.setxattr, f, "user.a", b"x", CREATE)
        self.refused(errno.ENODATA, kernel.setxattr, f, "user.b", b"x", REPLACE)
        kernel.setxattr(f, "user.a", b"two", REPLACE)
        kernel.setxattr(f, "user.b", b"")
        self.assertEqual(kernel.getxattr(f, "user.a"), b"two")
        kernel.removexattr(f, "security.s")
        self.refused(errno.ENODATA, kernel.getxattr, f, "security.s")
        self.refused(errno.ENODATA, kernel.removexattr, f, "security.s")
        self.refused(errno.ENOSPC, kernel.setxattr, f, "user.c", bytes(1025))
        for number in range(62):
            kernel.setxattr(f, f"user.{number}", b"")
        self.refused(errno.ENOSPC, kernel.setxattr, f, "user.c", b"")
        self.assertEqual(len(kernel.listxattr(f)), 64)
        changed = kernel.setattr(f, SET_MODE | SET_UID, mode=0o600, uid=7)
        self.assertEqual((kernel.getattr(f, fh).mode & 0o7777, kernel.getattr(f, fh).uid),
                         (0o600, 7))
        self.assertEqual(changed.nlink, 0)
        kernel.release(f, fh)


if __name__ == "__main__":
    unittest.main()
