"""What the bridge needn't ask, of the server and by the kernel; and signals, on a played server."""

import errno
import signal
import unittest

from . import played
from .bridges import Bridge
from .kernel import CAPABLE, ROOT, WAIT, Flag
from .played import made, refused, texts
from .test_bridge_servers import PlayedCase

CAPABILITY = "security.capability"


class Requests(PlayedCase):
    def asked_by(self, call, *words):
        """The ops that a call asks."""
        before = len(self.server.asked)
        call(*words)
        return [body[0] for body in self.server.asked[before:]]

    def test_the_kernel_tells_whose_bits_go(self):
        """Where it can; then it needn't ask for capabilities before each write."""
        for flags, wanted in ((CAPABLE, True), (CAPABLE & ~Flag.HANDLE_KILLPRIV_V2, False)):
            bridge = Bridge(self.server.path, "--sessions", "1", init=False)
            self.addCleanup(bridge.end)
            answer = bridge.kernel.init(flags=flags)
            self.assertEqual(bool(answer & Flag.HANDLE_KILLPRIV_V2), wanted)
            self.assertFalse(answer & Flag.HANDLE_KILLPRIV)

    def test_what_was_made_has_no_attributes(self):
        kernel = self.bridge()
        node = kernel.create(ROOT, "new")[0].nodeid
        self.assertEqual(self.asked_by(self.refused, errno.ENODATA, kernel.getxattr, node,
                                       CAPABILITY), [])
        self.assertEqual(self.asked_by(kernel.listxattr, node), [])
        self.assertEqual(self.asked_by(self.refused, errno.ENODATA, kernel.removexattr, node,
                                       "user.a"), [])
        self.assertEqual(self.asked_by(kernel.setxattr, node, "user.a", b"one"),
                         [played.SETATTR])
        self.assertEqual(kernel.getxattr(node, "user.a"), b"one")

    def test_what_has_none_is_asked_once(self):
        kernel = self.bridge()
        node = kernel.lookup(ROOT, "f").nodeid
        self.server.lies[played.GETATTR] = refused(errno.ENODATA)
        self.server.lies[played.ATTRS] = made(texts(b"user.overlayd.meta"))
        ops = self.asked_by(self.refused, errno.ENODATA, kernel.getxattr, node, CAPABILITY)
        self.assertEqual(sorted(ops), [played.GETATTR, played.ATTRS])
        for _ in range(3):
            self.assertEqual(self.asked_by(self.refused, errno.ENODATA, kernel.getxattr, node,
                                           CAPABILITY), [])
        self.assertEqual(self.asked_by(kernel.listxattr, node), [])

    def test_with_others_all_is_asked_each_time(self):
        kernel = self.bridge("--shared")
        node = kernel.create(ROOT, "new")[0].nodeid
        for _ in range(2):
            self.server.lies[played.GETATTR] = refused(errno.ENODATA)
            ops = self.asked_by(self.refused, errno.ENODATA, kernel.getxattr, node, CAPABILITY)
            self.assertIn(played.GETATTR, ops)

    def test_a_signal_ends_it(self):
        for number in (signal.SIGTERM, signal.SIGINT, signal.SIGHUP):
            bridge = Bridge(self.server.path, "--sessions", "1")
            bridge.kernel.lookup(ROOT, "f")
            bridge.process.send_signal(number)
            self.assertEqual(bridge.process.wait(WAIT), 0)
            self.assertIn("round trips", bridge.end())


if __name__ == "__main__":
    unittest.main()
