"""What a user begins with: `tools/try-fuse`, and the example of a build in a sandbox."""

import os
import re
import signal
import subprocess
import unittest

import real_server

from .bridges import of_sockets
from .kernel import WAIT
from .mounts import why_not

EXAMPLES = real_server.ROOT / "examples"


@of_sockets
class Sessions(unittest.TestCase):
    @classmethod
    def setUpClass(cls):
        reason = why_not()
        if reason:
            raise unittest.SkipTest(reason)

    def test_build_sandbox(self):
        """It prints what stands beside it, and leaves no mount."""
        done = subprocess.run(["examples/build-sandbox", real_server.program()],
                              cwd=real_server.ROOT, stdin=subprocess.DEVNULL,
                              stdout=subprocess.PIPE, stderr=subprocess.PIPE, text=True,
                              timeout=WAIT, check=False)
        self.assertEqual(done.stdout, (EXAMPLES / "build-sandbox.stdout").read_text("ascii"),
                         done.stderr)
        self.assertEqual(done.returncode, 0)

    def tried(self):
        """A run of try-fuse that has mounted, and where."""
        run = subprocess.Popen(["tools/try-fuse", "examples"], cwd=real_server.ROOT,
                               env=dict(os.environ, OVERLAYD=real_server.program()),
                               stdin=subprocess.DEVNULL, stdout=subprocess.PIPE,
                               stderr=subprocess.DEVNULL, text=True)
        self.addCleanup(run.stdout.close)
        for line in run.stdout:
            found = re.search(r" is mounted at (.*): change it", line)
            if found:
                return run, found.group(1)
        self.fail(f"it mounted nothing: status {run.wait(WAIT)}")

    def test_a_directory_is_tried(self):
        """A copy is changed and not the directory; unmounting ends it, and nothing is left."""
        run, mount = self.tried()
        self.assertEqual(sorted(os.listdir(mount)), sorted(os.listdir(EXAMPLES)))
        os.unlink(os.path.join(mount, "race.toml"))
        self.assertTrue((EXAMPLES / "race.toml").exists())
        subprocess.run(["fusermount3", "-u", mount], check=True)
        self.assertEqual(run.wait(WAIT), 0)
        self.assertFalse(os.path.exists(os.path.dirname(mount)))

    def test_a_try_that_is_interrupted(self):
        run, mount = self.tried()
        run.send_signal(signal.SIGTERM)
        self.assertEqual(run.wait(WAIT), 1)
        self.assertFalse(os.path.exists(os.path.dirname(mount)))

    def test_what_is_no_directory(self):
        done = subprocess.run(["tools/try-fuse", "README.md"], cwd=real_server.ROOT,
                              capture_output=True, text=True, check=False)
        self.assertEqual((done.returncode, done.stdout), (2, ""))
        self.assertIn("usage: tools/try-fuse DIRECTORY", done.stderr)


if __name__ == "__main__":
    unittest.main()
