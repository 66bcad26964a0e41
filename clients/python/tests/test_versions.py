"""One version for the package, its commands and the changelog."""

import contextlib
import io
import re
import unittest

from overlayd import __version__
from overlayd.exporter.command import main as export
from overlayd.importer.command import main as load

from . import import_tools as tools


class Versions(unittest.TestCase):
    """What --version prints."""

    def test_of_the_commands(self) -> None:
        """Name and version."""
        for name, main in (("overlayd-import", load), ("overlayd-export", export)):
            printed = io.StringIO()
            with contextlib.redirect_stdout(printed), self.assertRaises(SystemExit) as ended:
                main(["--version"])
            self.assertEqual((ended.exception.code, printed.getvalue()),
                             (0, f"{name} {__version__}\n"))

    def test_of_the_changelog(self) -> None:
        """The first heading."""
        text = (tools.REPOSITORY / "CHANGELOG.md").read_text("utf-8")
        first = re.search(r"^## (\S+)", text, re.M)
        self.assertEqual(first and first[1], __version__)


if __name__ == "__main__":
    unittest.main()
