"""The session of `examples/` from an image to a change, run with the program."""

import subprocess
import unittest

from . import import_tools as tools
from . import real_server

EXAMPLES = real_server.ROOT / "examples"


class SessionTest(unittest.TestCase):
    """What it prints is what stands beside it."""

    def setUp(self) -> None:
        reason = real_server.why_not()
        if reason:
            tools.skip(self.id(), reason)

    def test_image_session(self) -> None:
        """Its lines, and its status."""
        done = subprocess.run(["examples/image-session", str(real_server.program())],
                              cwd=real_server.ROOT, stdin=subprocess.DEVNULL,
                              stdout=subprocess.PIPE, stderr=subprocess.PIPE, text=True,
                              timeout=real_server.WAIT, check=False)
        self.assertEqual(done.stdout, (EXAMPLES / "image-session.stdout").read_text("ascii"),
                         done.stderr)
        self.assertEqual(done.returncode, 0)

    def test_a_program_that_fails(self) -> None:
        """It ends the session, which leaves nothing behind."""
        done = subprocess.run(["examples/image-session", "/bin/false"], cwd=real_server.ROOT,
                              stdin=subprocess.DEVNULL, stdout=subprocess.PIPE,
                              stderr=subprocess.DEVNULL, text=True, timeout=real_server.WAIT,
                              check=False)
        self.assertEqual((done.returncode, done.stdout), (1, "The image:\n"))


if __name__ == "__main__":
    unittest.main()
