"""`overlayd-serve`: on a program that the tests play, and on the program where it is built."""

import contextlib
import errno
import io
import json
import os
import pathlib
import signal
import socket
import subprocess
import sys
import tempfile
import textwrap
import time
import unittest

from overlayd import Client
from overlayd.exporter import Change, Entry, MemoryTree, changes
from overlayd.supervisor.command import Refused, command_of, main, parser
from overlayd.supervisor.saving import write_upper_manifest

from . import import_tools as tools
from . import real_server
from .real_server import WAIT

CLIENTS = pathlib.Path(__file__).resolve().parents[1]

# Takes the words of `overlayd serve`, and ends with its standard input as that does. A manifest of
# another first line says what else it does.
PLAYED = f"""\
#!{sys.executable}
import json, os, signal, socket, sys, time
words = sys.argv[1:]
if words == ["serve", "--help"]:
    print("--until-eof --save FILE", os.environ.get("TOLD", ""))
    sys.exit(0)
with open(words[1]) as manifest:
    does = manifest.readline().strip()
if does.startswith("exit"):
    sys.exit(int(does[4:]))
if does == "kill":
    os.kill(os.getpid(), signal.SIGKILL)
if does == "stay":
    time.sleep(1)
    sys.exit(1)
link = socket.socket(socket.AF_UNIX)
link.bind(words[2])
link.listen()
signals = [os.getsid(0) == os.getpid(), "NOTIFY_SOCKET" in os.environ]
sys.stdin.read()
with open(words[words.index("--save") + 1], "w") as saved:
    json.dump([words, signals], saved)
"""


class Case(unittest.TestCase):
    def setUp(self):
        folder = tempfile.TemporaryDirectory()
        self.addCleanup(folder.cleanup)
        self.folder = pathlib.Path(folder.name)
        self.program = self.folder / "played"
        self.program.write_text(PLAYED)
        self.program.chmod(0o755)
        self.saved = self.folder / "saved"
        self.told = socket.socket(socket.AF_UNIX, socket.SOCK_DGRAM)
        self.addCleanup(self.told.close)
        self.told.bind(str(self.folder / "notify"))
        self.told.settimeout(WAIT)

    def words(self, *more, manifest=""):
        (self.folder / "m").write_text(manifest + "\n")
        return ["--program", str(self.program), "--save", str(self.saved), *more,
                str(self.folder / "m"), str(self.folder / "s")]

    @contextlib.contextmanager
    def started(self, words):
        environment = {**os.environ, "PYTHONPATH": str(CLIENTS),
                       "NOTIFY_SOCKET": str(self.folder / "notify")}
        process = subprocess.Popen([sys.executable, "-m", "overlayd.supervisor", *words],
                                   env=environment, stderr=subprocess.PIPE, text=True)
        try:
            yield process
        finally:
            process.kill()
            process.communicate()

    def heard(self):
        """What systemd is told next."""
        return self.told.recv(1_000).decode().splitlines()[0]

    def hear_no_more(self):
        """Systemd was told nothing more."""
        self.told.setblocking(False)
        with self.assertRaises(BlockingIOError):
            self.told.recv(1_000)
        self.told.settimeout(WAIT)

    def wait_for(self, condition):
        limit = time.monotonic() + WAIT
        while not condition():
            self.assertLess(time.monotonic(), limit)
            time.sleep(0.02)


class Ends(Case):
    def test_a_signal_ends_the_server_in_order(self):
        for number in (signal.SIGTERM, signal.SIGINT):
            with self.subTest(number), self.started(self.words()) as process:
                self.assertEqual(self.heard(), "READY=1")
                process.send_signal(number)
                self.assertEqual(process.wait(WAIT), 0)
                self.assertEqual(self.heard(), "STOPPING=1")
                words, (own_session, told) = json.loads(self.saved.read_text())
                self.assertEqual(words[:1] + words[3:], [
                    "serve", "--until-eof", "--unlink", "--no-history", "--save", str(self.saved)])
                self.assertEqual((own_session, told), (True, False))
            self.hear_no_more()
            os.unlink(self.folder / "s")
            self.saved.unlink()

    def test_the_supervisors_own_end_is_the_servers(self):
        with self.started(self.words()) as process:
            self.assertEqual(self.heard(), "READY=1")
            process.kill()
            self.wait_for(lambda: self.saved.exists() and self.saved.stat().st_size)

    def test_the_status_is_the_servers(self):
        for does, status in [("exit 0", 0), ("exit 1", 1), ("exit 3", 3), ("kill", 128 + 9)]:
            with self.subTest(does), self.started(self.words(manifest=does)) as process:
                self.assertEqual(process.wait(WAIT), status)
                self.assertEqual(process.stderr.read(), "")

    def test_another_server_on_the_socket_is_not_taken_for_this_one(self):
        with socket.socket(socket.AF_UNIX) as other:
            other.bind(str(self.folder / "s"))
            other.listen()
            with self.started(self.words(manifest="stay")) as process:
                self.assertEqual(process.wait(WAIT), 1)
                self.assertEqual(self.heard(), "STOPPING=1")


class Commands(Case):
    def command(self, *more, options=(), told=""):
        """The server's command line, without what is the same in each."""
        os.environ["TOLD"] = told
        self.addCleanup(os.environ.pop, "TOLD", None)
        words = parser().parse_args([*self.words(*more), "--", *options])
        return command_of(words)[4:]

    def test_a_history_is_kept_where_it_is_asked_for(self):
        usual = ["--until-eof", "--unlink", "--no-history", "--save", str(self.saved)]
        self.assertEqual(self.command(), usual)
        self.assertEqual(self.command(options=["--workers", "16", "--verbose"]),
                         [*usual, "--workers", "16", "--verbose"])
        usual.remove("--no-history")
        for options in (["--history", "5"], ["--history=5"]):
            self.assertEqual(self.command(options=options), [*usual, *options])

    def test_words_that_are_there_already(self):
        given = ["--unlink", "--no-history", "--status", "serve", "--idle", "5"]
        self.assertEqual(self.command(options=given)[5:], given[2:])

    def test_one_file_for_the_upper_and_the_status(self):
        (self.folder / "other").symlink_to(self.saved)
        for options in (["--status", str(self.saved)], [f"--status={self.folder}/other"]):
            with self.assertRaisesRegex(Refused, "saved: --save and --status name one file"):
                self.command(options=options)

    def test_faults_are_explained_where_the_program_can(self):
        self.assertEqual(self.command(told="--explain")[3], "--explain")

    def test_a_restart_goes_on_from_what_was_saved(self):
        joined = pathlib.Path(f"{self.saved}.mount")
        lower = '[[layer]]\n[[layer.entry]]\npath = "/l"\nkind = "dir"\n'

        def served(*more):
            words = self.words(*more, manifest="[[layer]]\n" + lower)
            return command_of(parser().parse_args(words))[2]

        self.assertEqual(served("--restart"), str(self.folder / "m"))
        self.saved.write_text("[[layer]]\n")
        self.assertEqual(served(), str(self.folder / "m"))
        self.assertFalse(joined.exists())
        self.assertEqual(served("--restart"), str(joined))
        self.assertEqual(joined.read_text("utf-8").split(), ("[[layer]]\n" + lower).split())
        for text in ("[[layer]]\n[[layer]]\n", "no TOML"):
            self.saved.write_text(text)
            with self.assertRaisesRegex(Refused, "saved:"):
                served("--restart")
        joined.unlink()
        joined.symlink_to(self.folder / "target")
        with self.assertRaisesRegex(Refused, "mount: is there, and no regular file"):
            served("--restart")

    def test_what_is_no_regular_file_is_never_replaced(self):
        target = self.folder / "target"
        target.write_text("kept")
        for make in (lambda: self.saved.symlink_to(target), lambda: os.mkfifo(self.saved),
                     self.saved.mkdir):
            make()
            with self.assertRaisesRegex(Refused, "saved: is there, and no regular file"):
                self.command()
            self.saved.rmdir() if self.saved.is_dir() else self.saved.unlink()
        self.assertEqual(target.read_text(), "kept")

    def test_one_line_for_what_cannot_be_started(self):
        words = self.words()
        words[1] = str(self.folder / "none")
        told = io.StringIO()
        with contextlib.redirect_stderr(told):
            self.assertEqual(main(words), 1)
        self.assertEqual(told.getvalue(),
                         f"overlayd-serve: {self.folder}/none: No such file or directory\n")

    def test_wrong_usage(self):
        for words in (["m"], ["--every", "5", "m", "s"], ["--restart", "m", "s"],
                      ["--save", "f", "--every", "0", "m", "s"]):
            with self.subTest(words), contextlib.redirect_stderr(io.StringIO()):
                with self.assertRaises(SystemExit) as ended:
                    main(words)
                self.assertEqual(ended.exception.code, 2)


class Held:
    """A tree of the tests' own as what a server has."""

    def __init__(self, tree):
        self.entries = {entry.path: entry for entry in tree.entries()}
        self.tree = tree

    def attributes(self, path):
        return list(self.entries[path].attrs)

    def read(self, path):
        if path not in self.entries:
            raise FileNotFoundError(errno.ENOENT, os.strerror(errno.ENOENT), path)
        return self.tree.read(self.entries[path])


class Manifests(unittest.TestCase):
    """What a save writes, by the manifest's page."""

    def written(self, found, mounted):
        stream = io.BytesIO()
        left_out = write_upper_manifest(found, Held(mounted), stream)
        return stream.getvalue().decode(), left_out

    def test_changes_are_one_layer(self):
        lower = MemoryTree([Entry("/a", "file", 0o644), Entry("/d", "dir"),
                            Entry("/d/x", "file", 0o644)], {"/a": b"old"})
        mounted = MemoryTree(
            [Entry("/", "dir", 0o700), Entry("/d", "dir"), Entry("/n", "dir", 0o750, 1, 2),
             Entry("/n/b", "file", 0o600, attrs=(("user.k", b"v"),)),
             Entry("/n/l", "symlink", 0o777, target="to")], {"/n/b": b"\x00\xff"})
        text, left_out = self.written(changes(lower, mounted), mounted)
        self.assertEqual(left_out, [])
        self.assertEqual(text, textwrap.dedent("""\
            [[layer]]

            [[layer.entry]]
            path = "/"
            kind = "dir"
            mode = 0o700

            [[layer.entry]]
            path = "/a"
            kind = "whiteout"

            [[layer.entry]]
            path = "/d"
            kind = "dir"
            opaque = true

            [[layer.entry]]
            path = "/n"
            kind = "dir"
            mode = 0o750
            uid = 1
            gid = 2

            [[layer.entry]]
            path = "/n/b"
            kind = "file"
            mode = 0o600
            attrs = [["user.k", "v"]]
            hex = "00ff"

            [[layer.entry]]
            path = "/n/l"
            kind = "symlink"
            target = "to"
            """))

    def test_further_names_lead_to_what_was_written(self):
        mounted = MemoryTree([
            Entry("/b\udcff", "file", 0o644, links=3, same=1),
            Entry("/c", "file", 0o644, links=3, same=1), Entry("/f", "file", 0o644, links=2, same=2),
            Entry("/g", "file", 0o644, links=2, same=2)],
            {"/b\udcff": b"x", "/c": b"x", "/f": b"y"})
        text, left_out = self.written(changes(MemoryTree([]), mounted), mounted)
        self.assertEqual(left_out, ["/b\udcff"])
        self.assertEqual([line for line in text.splitlines() if "=" in line], [
            'path = "/c"', 'kind = "file"', 'text = "x"', 'path = "/f"', 'kind = "file"',
            'text = "y"', 'path = "/g"', 'kind = "link"', 'to = "/f"'])

    def test_what_no_manifest_can_say_is_left_out_with_what_is_in_it(self):
        mounted = MemoryTree([
            Entry("/b\udcff", "dir"), Entry("/b\udcff/x", "dir"), Entry("/c", "dir"),
            Entry("/l", "symlink", 0o777, target="\udcff"),
            Entry("/v", "dir", attrs=(("user.a", b"\xff"),))])
        text, left_out = self.written(changes(MemoryTree([]), mounted), mounted)
        self.assertEqual(left_out, ["/b\udcff", "/l", "/v"])
        self.assertEqual([line for line in text.splitlines() if line.startswith("path")],
                         ['path = "/c"'])

    def test_a_file_that_has_gone_meanwhile_is_a_whiteout(self):
        class Gone(Held):
            def attributes(self, path):
                return []

        stream = io.BytesIO()
        found = [Change("/f", Entry("/f", "file", 0o644))]
        self.assertEqual(write_upper_manifest(found, Gone(MemoryTree([])), stream), [])
        self.assertEqual(stream.getvalue().decode().splitlines()[2:],
                         ["[[layer.entry]]", 'path = "/f"', 'kind = "whiteout"'])


class OnTheProgram(Case):
    """With the program itself: what is saved, over the lower layers, is what the mount showed."""

    LOWER = """[[layer]]
[[layer.entry]]
path = "/d"
kind = "dir"
[[layer.entry]]
path = "/d/f"
kind = "file"
text = "old"
[[layer.entry]]
path = "/gone"
kind = "file"
"""

    def setUp(self):
        super().setUp()
        reason = real_server.why_not()
        if reason:
            tools.skip(self.id(), reason)
        self.program = real_server.program()

    def shown(self):
        """The mount of what was saved, over the lower layer."""
        joined = self.folder / "joined"
        joined.write_text(self.saved.read_text("utf-8") + self.LOWER)
        done = subprocess.run([self.program, "show", str(joined)], stdout=subprocess.PIPE,
                              text=True, timeout=WAIT, check=True)
        return done.stdout.splitlines()

    def test_saves_now_and_then_and_in_the_end(self):
        words = self.words("--every", "0.2", manifest=f"[[layer]]\n{self.LOWER}")
        with self.started(words) as process:
            self.assertEqual(self.heard(), "READY=1")
            with Client(self.folder / "s", timeout=WAIT) as client:
                client.write_text("/d/f", "new!")
                client.unlink("/gone")
                client.mkdir("/n", 0o700)
                client.setxattr("/n", "user.a", b"v")
                client.link("/d/f", "/d/g")
                changed = ["d 0755 0 0 0 1 /", "d 0755 0 0 0 1 /d", "f 0644 0 0 4 2 /d/f",
                           "f 0644 0 0 4 2 /d/g", "d 0700 0 0 0 1 /n"]
                self.wait_for(lambda: self.saved.exists() and self.saved.stat().st_size
                              and self.shown() == changed)
                client.rmdir("/n")
                process.terminate()
                self.assertEqual(process.wait(WAIT), 0, process.stderr.read())
        self.assertEqual(self.shown(), changed[:-1])
        self.assertEqual(sorted(os.listdir(self.folder)),
                         ["joined", "m", "notify", "played", "s", "saved"])

    def test_a_restart_goes_on(self):
        words = self.words("--restart", manifest=f"[[layer]]\n{self.LOWER}")
        for count in range(2):
            with self.started(words) as process:
                self.assertEqual(self.heard(), "READY=1")
                with Client(self.folder / "s", timeout=WAIT) as client:
                    self.assertEqual(client.exists("/gone"), count == 0)
                    if count == 0:
                        client.unlink("/gone")
                process.terminate()
                self.assertEqual(process.wait(WAIT), 0, process.stderr.read())
                self.assertEqual(self.heard(), "STOPPING=1")
                self.hear_no_more()


if __name__ == "__main__":
    unittest.main()
