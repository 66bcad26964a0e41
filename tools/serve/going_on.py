"""Tests of mounts that go on with a saved upper, and of what may be saved where."""
import os
import socket

from explained import explained, ran
from servers import DETACH, DONE, expect, frames, runs, serving
from overlayd.frames import Op

BASE = """
redirect_dir = "on"
[[layer]]
entry = [{ path = "/own", kind = "file" }]
[[layer]]
entry = [{ path = "/f", kind = "file", text = "low" }, { path = "/d", kind = "dir" },
         { path = "/d/g", kind = "file", text = "g" }]
"""
SAVED = """[[layer]]
entry = [{ path = "/new", kind = "dir", mode = 0o700 }, { path = "/f", kind = "whiteout" }]
"""
JOINED = ("d 0755 0 0 0 1 /\nd 0755 0 0 0 1 /d\nf 0644 0 0 1 1 /d/g\n"
          "d 0700 0 0 0 1 /new\n")
SERVE = ["--workers", "1", "--until-eof"]


def asked(client, *fields):
    client.send(frames.request(*fields))
    status, _, _ = client.reply()
    expect(status, DONE, f"{fields}")


def an_upper_goes_on(program):
    """What a server saved is the upper of the next one, of `show` and of `play`, and nothing of
    the manifest's own upper is."""
    with serving(program, 1, 1, manifest=BASE, more=["--save", "out.toml"]) as server:
        with server.peer() as client:
            asked(client, Op.RENAME, b"/d", b"/e")
            asked(client, Op.UNLINK, b"/f")
            client.ask(DETACH, DONE, b"", "detach")
        expect(server.end(), "", "standard error")
        folder = server.socket.parent
        (folder / "base.toml").write_text(BASE)
        tree = ("d 0755 0 0 0 1 /\nd 0755 0 0 0 1 /e\nf 0644 0 0 1 1 /e/g\nf 0644 0 0 0 1 /own\n")
        words = ["base.toml", "--upper", "out.toml"]
        expect(ran(program, folder, ["show", *words]), (0, tree, ""), "show")
        expect(ran(program, folder, ["play", *words], "merge\n"), (0, tree, ""), "play")
        again = ["serve", *words[:1], "s", *words[1:], *SERVE, "--save", "again.toml"]
        expect(ran(program, folder, again), (0, "", ""), "serve")
        expect((folder / "again.toml").read_text(), (folder / "out.toml").read_text(), "saved again")


def an_upper_in_place_of_another(program):
    """It stands over the lower layers of a manifest with an upper and of one without."""
    lowers = "upper = false\n" + BASE.replace('entry = [{ path = "/own", kind = "file" }]', "")
    with runs(program) as (folder, _):
        (folder / "saved.toml").write_text(SAVED)
        for text in (BASE, lowers, BASE.replace('kind = "file" }]', 'kind = "wrong" }]')):
            (folder / "base.toml").write_text(text)
            words = ["show", "base.toml", "--upper", "saved.toml"]
            expect(ran(program, folder, words), (0, JOINED, ""), text)
            words = ["play", "base.toml", "--upper", "saved.toml"]
            made = ran(program, folder, words, "attach\n0 mkdir 755 /made\n0 rename /d /e\n")
            expect(made, (0, "client 0\n0 ok\n0 ok\n", ""), "it can be changed")


def what_is_no_saved_upper(program):
    """Faults of a saved upper have its name, whichever command reads it; so it isn't the manifest's
    that is told."""
    cases = [("history = 5\n" + SAVED, "manifest: layers", "as --save"),
             ("", "manifest: layers", "one layer"), (SAVED + SAVED, "manifest: layers", "one layer"),
             ("layer = []", "manifest: layers", "one layer"), ("layer = 3", "manifest: layers", "one"),
             ("layer = [3]", "manifest: key", "entry"), ("[[layer]]\nx = 1", "manifest: key", "entry"),
             ("[[layer]\n", "manifest: not TOML", "line 1"),
             (SAVED.replace("whiteout", "hole"), "layer 0 entry 1: kind", "whiteout")]
    with runs(program) as (folder, _):
        (folder / "base.toml").write_text(BASE)
        for text, fault, part in cases:
            (folder / "u.toml").write_text(text)
            for words in (["show", "base.toml"], ["play", "base.toml"], ["serve", "base.toml", "s"]):
                explained(program, folder, [*words, "--upper", "u.toml"], f"u.toml: {fault}", part,
                          "u.toml")
        explained(program, folder, ["show", "base.toml", "--upper", "no.toml"],
                  "no.toml: cannot read manifest", "no.toml: No such file")
        (folder / "u.toml").write_text(SAVED)
        for text, fault in (("layer = []", "manifest: layers"), ("a = 1", "manifest: key"),
                            ("[", "manifest: not TOML")):
            (folder / "base.toml").write_text(text)
            explained(program, folder, ["show", "base.toml", "--upper", "u.toml"], fault, "base.toml")
        lower = '[[layer]]\nentry = [{ path = "/n/g", kind = "file" }]\n'
        for text, layer in (("[[layer]]\n" + lower, 1), ("upper = false\n" + lower + "[[layer]]\n", 0)):
            (folder / "base.toml").write_text(text)
            explained(program, folder, ["show", "base.toml", "--upper", "u.toml"],
                      f"layer {layer} entry 0: parent", "base.toml, line 3, /n/g, path: ")
        (folder / "base.toml").write_text('metacopy = "on"\nupper = false\nlayer = [{}, {}]\n')
        explained(program, folder, ["show", "base.toml", "--upper", "u.toml"], "manifest: metacopy",
                  "redirect_dir")


def what_stands_where_it_is_saved(program):
    """No link is followed, nothing but a regular file is replaced, and no name that is taken is
    written to."""
    with runs(program) as (folder, _):
        precious = folder / "precious"
        precious.write_text("precious")
        save = ["serve", "manifest.toml", "s", *SERVE, "--save"]
        (folder / "link").symlink_to("precious")
        (folder / "astray").symlink_to("nowhere")
        (folder / "directory").mkdir()
        os.mkfifo(folder / "fifo")
        with socket.socket(socket.AF_UNIX) as bound:
            bound.bind(str(folder / "socket"))
        before = {path.name: path.lstat() for path in folder.iterdir()}
        for name in ("link", "astray", "directory", "fifo", "socket", "/dev/null"):
            explained(program, folder, [*save, name], "cannot save", name, "no regular file")
        expect({path.name: path.lstat() for path in folder.iterdir()}, before, "what was there")
        (folder / "out.part").symlink_to("precious")
        (folder / "out.part1").write_text("taken")
        expect(ran(program, folder, [*save, "out"]), (0, "", ""), "beside names that are taken")
        expect((folder / "out").read_text(), "[[layer]]\n", "what was saved")
        expect((folder / "out").is_symlink(), False, "a file of its own")
        expect((precious.read_text(), os.readlink(folder / "out.part"),
                (folder / "out.part1").read_text()), ("precious", "precious", "taken"), "the taken ones")
        expect(sorted(path.name for path in folder.glob("out*")), ["out", "out.part", "out.part1"],
               "nothing is left beside it")


def a_server_that_is_killed_leaves_nothing(program):
    """Its file of `--save` stays as it was, and nothing stands beside it."""
    with serving(program, 1, 3, more=["--save", "out"]) as server:
        with server.peer() as client:
            client.ask(DETACH, DONE, b"", "detach")
        server.run.kill()
        server.run.wait()
        expect([path.name for path in server.socket.parent.glob("out*")], [], "what is left")


TESTS = [an_upper_goes_on, an_upper_in_place_of_another, what_is_no_saved_upper,
         what_stands_where_it_is_saved, a_server_that_is_killed_leaves_nothing]
