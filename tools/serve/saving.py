"""Tests of the upper that a server saves at its end."""
import random
import subprocess
from concurrent.futures import ThreadPoolExecutor
from io import BytesIO

from servers import DETACH, DONE, SECONDS, expect, frames, runs, serving
from overlayd.frames import Op
from overlayd.importer import toml
from overlayd.importer.writing import ManifestWriter, bytes_line, quoted

LAYERS = 500
LOWER = b"\n[[layer]]\n"
NAMES = ["a", "b", "c", "\u00fc", "\u540d\u524d", "x y", '"', "'", "\\", "#", "\t", "\n", "\x01",
         "\x7f", "\U0001f600", "a" * 255, ".a", "[[layer]]", "\u0085"]
TEXTS = ["", "x", "line\n", "\n", '"""', "'''", "\\u0041", "\r\n", "\x1b[0m", "\u00e9" * 40,
         "\x02" * 30, " = ", "\ufeff", "z" * 5000]

KINDS = ["dir", "dir", "file", "file", "file", "symlink", "whiteout", "link"]


class Layer:
    """A layer that dice make: what stands at each path, in an order that a manifest may have."""

    def __init__(self, seed):
        self.dice = random.Random(seed)
        self.entries = {}
        self.directories = ["/"]
        if self.dice.random() < 0.5:
            self.entries["/"] = {"kind": "dir", **self.attributes()}
        for _ in range(self.dice.randrange(14)):
            self.put()

    def put(self):
        parent = self.dice.choice(self.directories)
        path = parent.rstrip("/") + "/" + self.dice.choice(NAMES)
        if path in self.entries:
            return
        kind = self.dice.choice(KINDS)
        entry = {"kind": kind}
        if kind in ("dir", "file"):
            entry.update(self.attributes())
        if kind == "dir":
            entry.update(self.marks())
            self.directories.append(path)
        elif kind == "file":
            entry["bytes"] = self.bytes()
        elif kind == "symlink":
            entry.update(uid=self.owner(), gid=self.owner(),
                         target=self.dice.choice(NAMES) + self.dice.choice(TEXTS[1:-1])[:4000])
        elif kind == "link":
            first = [there for there, what in self.entries.items()
                     if what["kind"] in ("file", "symlink")]
            if not first:
                return
            entry["to"] = self.dice.choice(first)
        self.entries[path] = entry

    def owner(self):
        return self.dice.choice([0, 0, 1, 1000, 4294967295])

    def attributes(self):
        names = self.dice.sample(NAMES, self.dice.choice([0, 0, 1, 3]))
        pairs = [["user." + name[:200], self.dice.choice(TEXTS)[:500]] for name in names]
        return {"mode": self.dice.choice([0, 0o644, 0o755, 0o7777, 0o600]), "uid": self.owner(),
                "gid": self.owner(), "attrs": pairs}

    def marks(self):
        redirect = self.dice.choice([None, None, None, "/" + self.dice.choice(NAMES),
                                     "/a/" + self.dice.choice(NAMES), self.dice.choice(NAMES)])
        return {"opaque": self.dice.random() < 0.3, "redirect": redirect}

    def bytes(self):
        choice = self.dice.randrange(4)
        if choice == 0:
            return bytes(self.dice.choice([0, 1, 4096, 1_048_576]))
        if choice == 1:
            return self.dice.randbytes(self.dice.choice([1, 7, 4097, 20_000]))
        return "".join(self.dice.choices(TEXTS, k=choice)).encode()

    def manifest(self):
        """As the importer writes it, with an empty layer below."""
        out = BytesIO()
        writer = ManifestWriter(out)
        writer.layer()
        for path, entry in self.entries.items():
            self.write(writer, out, path, entry)
        return out.getvalue() + LOWER

    @staticmethod
    def write(writer, out, path, entry):
        kind = entry["kind"]
        if kind == "whiteout":
            writer.whiteout(path)
        elif kind == "link":
            writer.link(path, entry["to"])
        else:
            lines = [f"{key} = {entry[key]}" for key in ("mode", "uid", "gid") if key in entry]
            if entry.get("attrs"):
                pairs = (f"[{quoted(name)}, {quoted(value)}]" for name, value in entry["attrs"])
                lines.append(f"attrs = [{', '.join(pairs)}]")
            lines += ["opaque = true"] * entry.get("opaque", False)
            lines += [f"{key} = {quoted(entry[key])}" for key in ("redirect", "target")
                      if entry.get(key)]
            writer._entry(path, kind, lines)
            out.write(bytes_line(entry.get("bytes", b"")))

    def seen(self):
        return seen(self.entries)


def seen(entries):
    """What a layer has at each path, and the paths that lead to the same."""
    names = {}
    for path, entry in entries.items():
        names.setdefault(entry.get("to", path), set()).add(path)
    found = {"/": ("dir", 0o755, 0, 0, [], b"", None, False, None, {"/"})}
    for first, paths in names.items():
        entry = entries[first]
        mode = {"dir": 0o755, "file": 0o644}.get(entry["kind"])
        for path in paths:
            found[path] = (entry["kind"], entry.get("mode", mode), entry.get("uid", 0),
                           entry.get("gid", 0), entry.get("attrs", []), entry.get("bytes", b""),
                           entry.get("target"), entry.get("opaque", False), entry.get("redirect"),
                           paths)
    return found


def plain(value):
    """A value of TOML without its lines."""
    if isinstance(value, toml.Found):
        return plain(value.value)
    if isinstance(value, list):
        return [plain(item) for item in value]
    if isinstance(value, toml.Table):
        return {key: plain(item) for key, item in value.members.items()}
    return value


def saved_entries(data):
    """The entries of the one layer of a manifest, as another reader of TOML has them."""
    manifest = plain(toml.read(data))
    expect((list(manifest), len(manifest["layer"])), (["layer"], 1), "a manifest of one layer")
    entries = {}
    for entry in manifest["layer"][0].get("entry", []):
        path = entry.pop("path")
        expect(path in entries, False, f"{path}: twice")
        text, digits, zeros = entry.pop("text", ""), entry.pop("hex", ""), entry.pop("zeros", 0)
        entry["bytes"] = text.encode() + bytes.fromhex(digits) + bytes(zeros)
        entries[path] = entry
    return entries


def run(program, folder, words, script=b""):
    ran = subprocess.run([program, *words], cwd=folder, input=script, capture_output=True,
                         timeout=SECONDS, check=False)
    return ran.returncode, ran.stdout, ran.stderr.decode()


def saves(program, folder, seed):
    """Serves a layer that dice made, and reads what was saved."""
    name, layer = f"l{seed}", Layer(seed)
    (folder / f"{name}.toml").write_bytes(layer.manifest())
    words = ["serve", f"{name}.toml", f"{name}.s", "--workers", "1", "--until-eof",
             "--save", f"{name}.saved"]
    expect(run(program, folder, words), (0, b"", ""), f"layer {seed}")
    saved = (folder / f"{name}.saved").read_bytes()
    expect(seen(saved_entries(saved)), layer.seen(), f"layer {seed}")
    (folder / f"{name}.again").write_bytes(saved + LOWER)
    shown = [run(program, folder, ["play", which], b"layer 0\n")
             for which in (f"{name}.toml", f"{name}.again")]
    expect(shown[1], shown[0], f"layer {seed}, read again")
    expect(shown[0][0], 0, f"layer {seed}, shown")
    for path in folder.glob(f"{name}.*"):
        path.unlink()


def generated_layers(program):
    """500 layers that dice make are saved as they are, by another reader and by the program."""
    with runs(program) as (folder, _), ThreadPoolExecutor(4) as pool:
        for _ in pool.map(lambda seed: saves(program, folder, seed), range(LAYERS)):
            pass


def a_large_file(program):
    """A file over the limit that files have by default is saved too; the option that allows it
    stands before what was saved, as in the manifest."""
    option = b"file_limit = 3000000\n"
    entries = {"/f": {"kind": "file", "bytes": random.Random(1).randbytes(2_000_001)}}
    layer = Layer(0)
    layer.entries = entries
    with runs(program) as (folder, _):
        (folder / "m.toml").write_bytes(option + layer.manifest())
        words = ["serve", "m.toml", "s", "--workers", "1", "--until-eof", "--save", "saved"]
        expect(run(program, folder, words), (0, b"", ""), "served")
        saved = (folder / "saved").read_bytes()
        expect(seen(saved_entries(saved)) == seen(entries), True, "the upper")
        (folder / "again.toml").write_bytes(option + saved + LOWER)
        shown = run(program, folder, ["play", "again.toml"], b"layer 0\n")
        expect(shown, (0, b"d 0755 0 0 0 1 /\nf 0644 0 0 2000001 1 /f\n", ""), "read again")


def asked(client, *fields):
    client.send(frames.request(*fields))
    status, _, _ = client.reply()
    expect(status, DONE, f"{fields}")


CHANGED = """
redirect_dir = "on"
metacopy = "on"
[[layer]]
[[layer]]
entry = [{ path = "/f", kind = "file", text = "low" }, { path = "/d", kind = "dir" },
         { path = "/d/g", kind = "file", zeros = 5000 }]
"""


def what_clients_changed(program):
    """What clients made is saved: a moved directory, a file whose bytes are below, two names of one
    file, and no file without a name."""
    with serving(program, 1, 1, manifest=CHANGED, more=["--save", "out.toml"]) as server:
        with server.peer() as client:
            asked(client, Op.CHMOD, 0o600, b"/f")
            asked(client, Op.RENAME, b"/d", b"/e")
            asked(client, Op.LINK, b"/f", b"/e/f")
            asked(client, Op.SYMLINK, b"to", b"/s")
            asked(client, Op.OPEN, 2 | 4, 0o640, b"/gone")
            asked(client, Op.UNLINK, b"/gone")
            client.ask(DETACH, DONE, b"", "detach")
        expect(server.end(), "", "standard error")
        found = seen(saved_entries((server.socket.parent / "out.toml").read_bytes()))
    low = ("file", 0o600, 0, 0, [], b"low", None, False, None, {"/f", "/e/f"})
    hidden = ("whiteout", None, 0, 0, [], b"", None, False, None, {"/d"})
    moved = ("dir", 0o755, 0, 0, [], b"", None, False, "/d", {"/e"})
    link = ("symlink", None, 0, 0, [], b"", "to", False, None, {"/s"})
    root = ("dir", 0o755, 0, 0, [], b"", None, False, None, {"/"})
    expect(found, {"/": root, "/f": low, "/e/f": low, "/d": hidden, "/e": moved, "/s": link},
           "the upper")


def what_no_manifest_can_say(program):
    """A name that is no UTF-8 is left out with what is in it, which is told; all else is saved."""
    with serving(program, 1, 1, more=["--save", "out.toml"]) as server:
        with server.peer() as client:
            asked(client, Op.MKDIR, 0o755, b"/\xff")
            asked(client, Op.MKDIR, 0o755, b"/\xff/in")
            asked(client, Op.MKDIR, 0o755, b"/kept")
            asked(client, Op.SYMLINK, b"\xfe", b"/s")
            client.ask(DETACH, DONE, b"", "detach")
        told = server.end(status=1)
        found = seen(saved_entries((server.socket.parent / "out.toml").read_bytes()))
    expect(told, "overlayd: not saved: /s\noverlayd: not saved, since no manifest can say them: "
           "2 objects\n", "standard error")
    expect(sorted(found), ["/", "/kept"], "what was saved")


def what_cannot_be_saved(program):
    """What can't be saved is told before anything is served, where it can be known then."""
    with runs(program) as (folder, _):
        (folder / "lower.toml").write_text("upper = false\n[[layer]]\n[[layer]]\n")
        (folder / "directory").mkdir()
        serve = ["serve", "manifest.toml", "s", "--workers", "1"]
        save = [*serve, "--until-eof", "--save"]
        expect(run(program, folder, [*serve, "--save", "out"]),
               (2, b"", "overlayd: --save needs --until-eof or --sessions\n"), "no end")
        expect(run(program, folder, ["serve", "lower.toml", *save[2:], "out"]),
               (1, b"", "overlayd: cannot save: the mount has no upper layer\n"), "no upper")
        expect(run(program, folder, [*save, "none/out"]), (1, b"", "overlayd: cannot save\n"),
               "no directory")
        expect((folder / "s").exists(), False, "no socket is made")
        expect(run(program, folder, [*save, "directory"]), (1, b"", "overlayd: cannot save\n"),
               "a directory in its place")
        expect((folder / "s").exists(), False, "no socket is made for it")
        (folder / "out").write_text("old")
        expect(run(program, folder, [*save, "out"]), (0, b"", ""), "over an old one")
        expect((folder / "out").read_bytes(), b"[[layer]]\n", "the new one")
        expect((folder / "out.part").exists(), False, "nothing is left beside it")


def without_standard_streams(program):
    """Started without standard streams, a server tells nothing into the file that it saves."""
    for closed in ((2,), (0, 1, 2)):
        with serving(program, 1, 1, more=["--save", "out.toml", "-v"], closed=closed) as server:
            with server.peer() as client:
                client.ask(DETACH, DONE, b"", "detach")
            expect(server.end(), "", "standard error, which is closed")
            saved = (server.socket.parent / "out.toml").read_bytes()
        expect(saved, b"[[layer]]\n", f"what is saved without {closed}")


TESTS = [generated_layers, a_large_file, what_clients_changed, what_no_manifest_can_say,
         what_cannot_be_saved, without_standard_streams]
