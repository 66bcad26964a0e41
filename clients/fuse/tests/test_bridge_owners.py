"""Owners that are shown as others: --map-uids, --map-gids and --squash, on a played server."""

import errno
import os
import unittest

from . import played
from .kernel import ROOT, SET_GID, SET_UID
from .played import attr, made
from .test_bridge_servers import PlayedCase

NOBODY = 4294967294


class Owners(PlayedCase):
    MAPS = ("--map-uids", "0:100000:65536", "--map-uids", "70000:5:1",
            "--map-gids", "0:200000:10")

    def shown(self, kernel, uid, gid):
        """How a file of the engine's owner and group is shown."""
        self.server.lies[played.STAT] = made(attr(uid=uid, gid=gid))
        found = kernel.lookup(ROOT, f"{uid}-{gid}").attr
        return found.uid, found.gid

    def test_what_is_shown(self):
        kernel = self.bridge(*self.MAPS)
        self.assertEqual(self.shown(kernel, 0, 0), (100000, 200000))
        self.assertEqual(self.shown(kernel, 65535, 9), (165535, 200009))
        self.assertEqual(self.shown(kernel, 70000, 10), (5, NOBODY))
        self.assertEqual(self.shown(kernel, 65536, 4294967295), (NOBODY, NOBODY))

    def test_what_is_made(self):
        kernel = self.bridge(*self.MAPS)
        kernel.uid, kernel.gid = 100007, 200003
        kernel.mkdir(ROOT, "d")
        self.assertIn(bytes((played.CHOWN, 0, 0, 0, 7, 0, 0, 0, 3, 0, 2)) + b"/d",
                      self.server.asked)
        for kernel.uid, kernel.gid in ((7, 200003), (100007, 3), (0, 0)):
            before = len(self.server.asked)
            self.refused(errno.EOVERFLOW, kernel.mkdir, ROOT, "e")
            self.refused(errno.EOVERFLOW, kernel.create, ROOT, "e")
            self.refused(errno.EOVERFLOW, kernel.symlink, ROOT, "e", "to")
            self.assertEqual(len(self.server.asked), before)

    def test_what_is_given_away(self):
        kernel = self.bridge(*self.MAPS)
        node = kernel.lookup(ROOT, "f").nodeid
        changed = kernel.setattr(node, SET_UID | SET_GID, uid=5, gid=200001)
        self.assertEqual((changed.uid, changed.gid), (5, 200001))
        self.assertIn(bytes((played.CHOWN, 0, 1, 0x11, 0x70, 0, 0, 0, 1, 0, 2)) + b"/f",
                      self.server.asked)
        self.refused(errno.EINVAL, kernel.setattr, node, SET_UID, uid=99)
        self.refused(errno.EINVAL, kernel.setattr, node, SET_GID, gid=200010)

    def test_all_are_shown_as_one(self):
        kernel = self.bridge("--squash")
        own = os.geteuid(), os.getegid()
        self.assertEqual(self.shown(kernel, 77, 88), own)
        node = kernel.lookup(ROOT, "f").nodeid
        kernel.uid, kernel.gid = 1234, 1234
        kernel.mkdir(ROOT, "d")
        changed = kernel.setattr(node, SET_UID | SET_GID, uid=own[0], gid=own[1])
        self.assertEqual((changed.uid, changed.gid), own)
        self.refused(errno.EPERM, kernel.setattr, node, SET_UID, uid=own[0] + 1)
        self.refused(errno.EPERM, kernel.setattr, node, SET_GID, gid=own[1] + 1)
        self.assertNotIn(played.CHOWN, {body[0] for body in self.server.asked})


if __name__ == "__main__":
    unittest.main()
