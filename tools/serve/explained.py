"""Tests of what is told beside a fault, and of what a session shows: `--explain`, a terminal,
`--echo`, and manifests and scripts from where they are asked for."""
import os
import pty
import subprocess

from servers import MANIFEST, SECONDS, expect, leave_behind, runs

TREE = "d 0755 0 0 0 1 /\nf 0644 0 0 0 1 /f\n"


def ran(program, folder, words, text=""):
    done = subprocess.run([program, *words], cwd=folder, input=text, capture_output=True, text=True,
                          timeout=SECONDS, check=False)
    return done.returncode, done.stdout, done.stderr


def on_a_terminal(program, folder, words):
    """What is told on a standard error that is a terminal."""
    first, second = pty.openpty()
    with os.fdopen(first, "rb", 0) as reads:
        with os.fdopen(second, "wb", 0) as writes:
            subprocess.run([program, *words], cwd=folder, stdin=subprocess.DEVNULL, stderr=writes,
                           stdout=subprocess.DEVNULL, timeout=SECONDS, check=False)
        told = reads.read(65536)
    return told.decode().replace("\r\n", "\n")


def explained(program, folder, words, fault, *parts, text="", status=1):
    """One line in a pipe, word for word; a second one, which has these parts, by --explain."""
    line = f"overlayd: {fault}\n"
    expect(ran(program, folder, words, text)[::2], (status, line), " ".join(words))
    found, _, told = ran(program, folder, [*words, "--explain"], text)
    expect((found, told.startswith(line), told.count("\n")), (status, True, 2), told)
    for part in parts:
        expect(part in told[len(line):], True, f"{part} in {told}")


def files_that_cannot_be_read(program):
    """The name and the reason of a manifest and of a blob, also where a limit was reached."""
    with runs(program) as (folder, _):
        (folder / "b").write_bytes(bytes(100))
        (folder / "m.toml").write_text('blobs = ["b", "gone"]\nlayer = [{}, {}]\n')
        size = (folder / "m.toml").stat().st_size
        gone, limit = "No such file or directory", f"--manifest-limit={size + 99}"
        fault = "cannot read manifest"
        for words in (["show", "none.toml"], ["play", "none.toml"], ["serve", "none.toml", "s"]):
            explained(program, folder, words, fault, "none.toml", gone)
        explained(program, folder, ["show", "."], fault, ".: Is a directory")
        explained(program, folder, ["show", "m.toml", "--manifest-limit=9"], fault, "m.toml", "9 bytes",
                  "--manifest-limit")
        explained(program, folder, ["show", "m.toml"], "cannot read blob 1", "blob 1", "gone", gone)
        explained(program, folder, ["show", "m.toml", limit], "cannot read blob 0", "blob 0, b",
                  "the limit was reached", "99 bytes")
        explained(program, folder, ["play", "manifest.toml", "--script", "gone"], "cannot read script",
                  "gone", gone)
        (folder / "m.toml").write_text('blobs = ["\\u001b[2J"]\nlayer = [{}, {}]\n')
        explained(program, folder, ["show", "m.toml"], "cannot read blob 0", "blob 0, \\x1b[2J: ", gone)


def in_layer(*entries):
    return "layer = [{}, { entry = [\n" + ",\n".join(entries) + "] }]\n"


FAULTS = [("layer = [{}, {}]\nhistory = 1", "manifest: history", "line 2, history: ", "2 to 1000000"),
          ("layer = [{}, {}]\n# a\na = 1", "manifest: key", "line 3, a: ", "redirect_dir"),
          ("layer = []", "manifest: layers", "line 1, layer: ", "2 to 17 layers"),
          ("layer = [{}, {}]\nmetacopy = 'on'", "manifest: metacopy", "line 2, ", "redirect_dir"),
          (in_layer("{ path = '/a', kind = 'fifo' }"), "layer 1 entry 0: kind", "line 2, /a, kind: ",
           "whiteout"),
          (in_layer("{ path = 'a b', kind = 'dir' }"), "layer 1 entry 0: path",
           "line 2, a\\x20b, path: ", "begins with /"),
          (in_layer("{ path = '/a/b', kind = 'dir' }"), "layer 1 entry 0: parent",
           "line 2, /a/b, path: ", "kind dir"),
          (in_layer("{ path = '/a', kind = 'dir' }", "{ path = '/a', kind = 'dir' }"),
           "layer 1 entry 1: exists", "line 3, /a, path: ", "same path"),
          (in_layer("{ path = '/a', kind = 'dir' }, # '/a'\n{ path = '/a', kind = 'dir' }"),
           "layer 1 entry 1: exists", "m.toml, /a, path: ", "same path"),
          (in_layer("{ path = '/l', kind = 'link', to = '/n' }"), "layer 1 entry 0: link",
           "line 2, /l, to: ", "before it"),
          (in_layer("{ path = '/a', kind = 'file', mode = 4096, uid = 3 }"), "layer 1 entry 0: value",
           "line 2, /a, mode: ", "0o755"),
          (in_layer("{ path = '/a', kind = 'dir', uid = 1, text = 'x' }"), "layer 1 entry 0: key",
           "line 2, /a, text: ", "not for this kind"),
          (in_layer("{ path = '/a', kind = 'file', at = 1 }"), "layer 1 entry 0: key",
           "line 2, /a, at: ", "unknown"),
          (in_layer("{ path = '/a', kind = 'symlink' }"), "layer 1 entry 0: key", "line 2, /a: ",
           "target of a symlink")]


def faults_of_a_manifest(program):
    """What is allowed, and the command that tells all; of what is no TOML the line."""
    with runs(program) as (folder, _):
        check = "overlayd-import --check m.toml"
        for text, fault, place, allowed in FAULTS:
            (folder / "m.toml").write_text(text)
            explained(program, folder, ["show", "m.toml"], fault, "m.toml", place, allowed, check)
        (folder / "m.toml").write_text("layer = [{}, {}]\n\nhistory = = 3\n")
        for words in (["show", "m.toml"], ["serve", "m.toml", "s"]):
            explained(program, folder, words, "manifest: not TOML", "m.toml, line 3: ", check)


LINES = [("nothing", "nothing", "attach"), ("0 stat", "stat", "C stat P"),
         ("0 mkdir 0o755 /a", "0o755", "1 to 6 octal digits"),
         ("0 mkdir  755 /a", "one space"), ("attach ", "one space"),
         ("0 stat /a\r", "carriage return"), ("0\tstat /a", "no tab"),
         ("0 open rw /f", "rw", "r, w or b"), ("0 seek 0 0 from", "from", "set, cur or end"),
         ("0 arm 256 1 /f", "256", "0 to 255"), ("0 read 0 x", "x", "decimal"),
         ("0 notices -1", "-1", "decimal"), ("0 remove /f", "remove", "--help"),
         ("0 open r /f 9", "9", "octal"), ("7 stat /f", "client 7 isn't attached"), ("layer 5", "no layer 5"),
         ("layer x", "x: I is"), ("0 drop", "begun no call"), ("0 step 0", "from 1"),
         ("0 start", "call"), ("x stat /f", "x", "a client's number"), ("0 stat \\xZZ", "\\x5cxZZ")]


def lines_of_a_script(program):
    """The word at fault of a bad line, and what may stand there."""
    with runs(program) as (folder, _):
        for line, *parts in LINES:
            explained(program, folder, ["play", "manifest.toml"], "line 2: bad command", *parts,
                      text=f"attach\n{line}\n", status=2)


def sockets_that_cannot_be_made(program):
    """Why, and that --unlink helps."""
    with runs(program) as (folder, _):
        leave_behind(folder / "s")
        serve = ["serve", "manifest.toml"]
        explained(program, folder, [*serve, "s"], "socket", "s: is there already", "--unlink")
        explained(program, folder, [*serve, "none/s"], "socket", "none/s: no such directory")
        explained(program, folder, [*serve, ""], "socket", "the path is empty")
        explained(program, folder, [*serve, "s" * 108], "socket", "longer than 107 bytes")


def a_terminal(program):
    """A terminal has the second line without being asked for it; what has none to tell, one."""
    with runs(program) as (folder, _):
        told = on_a_terminal(program, folder, ["show", "none.toml"])
        expect(told.splitlines()[0], "overlayd: cannot read manifest", "the first line")
        expect("none.toml: No such file" in told.splitlines()[1], True, told)
        told = on_a_terminal(program, folder, ["serve", "manifest.toml", "s", "--save", "out"])
        expect(told, "overlayd: --save needs --until-eof or --sessions\n", "one line")


def commands_are_echoed(program):
    """Each command before its answer; no comment and no empty line."""
    script = "# a comment\n\nattach\n0 stat /f\n0 start stat /\n0 step\nmerge\n"
    with runs(program) as (folder, _):
        status, out, told = ran(program, folder, ["play", "manifest.toml", "--echo"], script)
        expect((status, out, told), (0, "> attach\nclient 0\n> 0 stat /f\n0 ok f 0644 0 0 0 1\n"
               "> 0 start stat /\n> 0 step\n0 ok d 0755 0 0 0 1\n> merge\n" + TREE, ""), "echoed")
        (folder / "script").write_text(script)
        words = ["play", "manifest.toml", "--script", "script", "--echo"]
        expect(ran(program, folder, words, "nothing\n"), (status, out, told), "a script's file")
        status, out, _ = ran(program, folder, ["play", "manifest.toml", "--echo"], "\x1b[2J\n")
        expect((status, out), (2, "> \\x1b[2J\n"), "a byte that a terminal would take")


def manifests_from_standard_input(program):
    """By the name `-`, where nothing else is read from there."""
    with runs(program) as (folder, _):
        (folder / "script").write_text("merge\n")
        expect(ran(program, folder, ["show", "-"], MANIFEST), (0, TREE, ""), "show -")
        played = ran(program, folder, ["play", "-", "--script", "script"], MANIFEST)
        expect(played, (0, TREE, ""), "play -")
        fault = "standard input can't be the manifest here"
        explained(program, folder, ["play", "-"], fault, "--script", status=2)
        explained(program, folder, ["serve", "-", "s", "--until-eof"], fault, "a file", status=2)
        (folder / "-").write_text(MANIFEST)
        expect(ran(program, folder, ["show", "./-"]), (0, TREE, ""), "a file of that name")
        explained(program, folder, ["show", "-"], "manifest: layers", "standard input",
                  "overlayd-import --check -", text="layer = []\n")


def the_grammar(program):
    """The help of `play` has it on one screen."""
    with runs(program) as (folder, _):
        status, out, _ = ran(program, folder, ["play", "--help"])
        expect((status, out.count("\n") <= 40), (0, True), "a screen of 40 lines")
        for word in ("chmod MODE P", "open FLAGS P [MODE]", "C start CALL", "layer I", "notices N"):
            expect(word in out, True, word)


TESTS = [files_that_cannot_be_read, faults_of_a_manifest, lines_of_a_script,
         sockets_that_cannot_be_made, a_terminal, commands_are_echoed, manifests_from_standard_input,
         the_grammar]
