"""API.md names each operation, by methods that are there; sessions in documents are as shown."""

import doctest
import pathlib
import re
import unittest

from overlayd import Client, File, Pipeline, calls, frames

from . import import_tools as tools
from . import real_server

CLIENTS = pathlib.Path(__file__).resolve().parents[1]
DOCUMENT = CLIENTS / "API.md"
SERVED = real_server.ROOT / "examples" / "change-layer.toml"


class Document(unittest.TestCase):
    def setUp(self):
        self.rows = re.findall(r"^\| (\d+) \| `\w+` \| (.*?) \|", DOCUMENT.read_text(), re.M)

    def test_each_op_has_a_row(self):
        self.assertEqual([int(op) for op, _ in self.rows], list(range(1, 27)))

    def test_each_method_is_there(self):
        owners = {"client": Client, "file": File}
        for _, methods in self.rows:
            for owner, method in re.findall(r"(client|file)\.(\w+)\(", methods):
                self.assertTrue(callable(getattr(owners[owner], method)), method)

    def test_each_op_is_a_call_and_a_line_of_a_pipeline(self):
        for op in frames.Op:
            name = op.name.lower()
            self.assertIn(name, calls.__all__)
            self.assertTrue(callable(getattr(calls, name)))
            self.assertEqual(hasattr(Pipeline, name), op is not frames.Op.DETACH)


class Sessions(unittest.TestCase):
    """The Python sessions of documents, on a server of the manifest that they name."""

    def setUp(self):
        reason = real_server.why_not()
        if reason:
            tools.skip(self.id(), reason)

    def session(self, document, path):
        """The session of a document, with the server's socket in place of the one there."""
        text = re.sub(r"(/run|/tmp|out)/overlay\.socket", path, document.read_text("utf-8"))
        return doctest.DocTestParser().get_doctest(text, {}, document.name, str(document), 0)

    def test_sessions(self):
        for document in (CLIENTS / "README.md", real_server.ROOT / "README.md"):
            with self.subTest(document.name), real_server.Server(SERVED.read_text()) as server:
                server.client().close()
                told = []
                runner = doctest.DocTestRunner(verbose=False)
                runner.run(self.session(document, server.path), out=told.append)
                self.assertEqual(runner.failures, 0, "".join(told))
                if document.parent == CLIENTS:
                    self.assertGreater(runner.tries, 0)


if __name__ == "__main__":
    unittest.main()
