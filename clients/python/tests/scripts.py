"""Scripts of `overlayd play`, made through clients: each line's call, and the line it prints."""

import errno
import os
import pathlib
import re
import stat

from overlayd import calls

# What no socket shows, or no client asks for.
_SHOWN_ALONE = ("layer", "merge", "work")
_STEPPED = {"start", "step", "drop"}
_FLAGS = {"c": 4, "x": 8, "t": 16, "a": 32, "d": 64}
_WHENCE = {"set": os.SEEK_SET, "cur": os.SEEK_CUR, "end": os.SEEK_END}
_KINDS = {stat.S_IFDIR: "d", stat.S_IFREG: "f", stat.S_IFLNK: "l"}


def unescaped(word):
    """The bytes that a word of a script stands for."""
    if word == "\\-":
        return b""
    return re.sub(rb"\\x([0-9a-f]{2})", lambda m: bytes.fromhex(m[1].decode()), word.encode())


def escaped(value):
    """A value as a word of a printed line."""
    if isinstance(value, str):
        value = os.fsencode(value)
    plain = (chr(b) if 0x21 <= b <= 0x7E and b != 0x5C else f"\\x{b:02x}" for b in value)
    return "".join(plain) or "\\-"


def _opening(flags, path, mode="644"):
    byte = "rwb".index(flags[0]) | sum(_FLAGS[flag] for flag in flags[1:])
    return calls.open(unescaped(path), byte, int(mode, 8))


_CALLS = {
    "stat": lambda p: calls.stat(unescaped(p)),
    "readlink": lambda p: calls.readlink(unescaped(p)),
    "chmod": lambda m, p: calls.chmod(unescaped(p), int(m, 8)),
    "chown": lambda u, g, p: calls.chown(unescaped(p), int(u), int(g)),
    "setattr": lambda p, n, v: calls.setxattr(unescaped(p), unescaped(n), unescaped(v)),
    "getattr": lambda p, n: calls.getxattr(unescaped(p), unescaped(n)),
    "delattr": lambda p, n: calls.removexattr(unescaped(p), unescaped(n)),
    "attrs": lambda p: calls.listxattr(unescaped(p)),
    "mkdir": lambda m, p: calls.mkdir(unescaped(p), int(m, 8)),
    "symlink": lambda t, p: calls.symlink(unescaped(t), unescaped(p)),
    "link": lambda a, b: calls.link(unescaped(a), unescaped(b)),
    "rename": lambda a, b: calls.rename(unescaped(a), unescaped(b)),
    "unlink": lambda p: calls.unlink(unescaped(p)),
    "rmdir": lambda p: calls.rmdir(unescaped(p)),
    "open": _opening,
    "read": lambda f, n: calls.read(int(f), int(n)),
    "write": lambda f, d: calls.write(int(f), unescaped(d)),
    "seek": lambda f, o, w: calls.seek(int(f), int(o), _WHENCE[w]),
    "truncate": lambda f, s: calls.truncate(int(f), int(s)),
    "fstat": lambda f: calls.fstat(int(f)),
    "list": lambda f, n: calls.names(int(f), int(n)),
    "close": lambda f: calls.close(int(f)),
    "arm": lambda s, m, p: calls.arm(int(s), unescaped(p), int(m, 16)),
    "disarm": lambda w: calls.disarm(int(w)),
    "notices": lambda n: calls.notices(int(n)),
}


def _stat_words(found):
    kind = _KINDS[stat.S_IFMT(found.st_mode)]
    mode = stat.S_IMODE(found.st_mode)
    return [kind, f"{mode:04o}", *map(str, (found.st_uid, found.st_gid, found.st_size,
                                            found.st_nlink))]


def _words(name, result):
    """The words of a call's answer."""
    if name in ("stat", "fstat"):
        return _stat_words(result)
    if name in ("readlink", "getattr", "read"):
        return [escaped(result)]
    if name in ("list", "attrs"):
        return [escaped(text) for text in result]
    if name == "notices":
        return [f"{n.wd}:{n.mask:08x}:{n.cookie}:{escaped(n.name)}" for n in result]
    return [] if result is None else [str(result)]


def played_through(attached, script):
    """The lines that a script's commands come to, made by clients that `attached` gives."""
    clients, lines = [], []
    try:
        for command in script:
            if command == "attach":
                lines.append(f"client {len(clients)}")
                clients.append(attached())
                continue
            number = int(command.split(" ")[0])
            lines.append(line_of(clients[number], command))
    finally:
        for client in clients:
            client.close()
    return lines


def line_of(client, command):
    """Makes the call of a command by a client; the line that `play` prints for it."""
    digits, name, *words = command.split(" ")
    number = int(digits)
    try:
        if name == "detach":
            client.detach()
            return f"{number} detached"
        result = client.call(_CALLS[name](*words))
    except OSError as error:
        if isinstance(error, ConnectionError):
            raise
        taken = "" if error.place is not None else "not taken "
        return f"{number} {taken}{errno.errorcode[error.errno].replace('ENOTSUP', 'EOPNOTSUPP')}"
    return " ".join([str(number), "ok", *_words(name, result)])


def rows(folder: pathlib.Path):
    """The worked scripts of a folder: each one's name, manifest and lines.

    Left out are lines for what a socket doesn't show, and scripts with repetitions, with steps,
    without a client, or where several clients, whose attaches take their time, race for the last
    places of a history.
    """
    for file in sorted(folder.glob("*.rows")):
        for row in re.split(r"^== ", file.read_text(), flags=re.M)[1:]:
            name, _, rest = row.partition("\n")
            parts = re.split(r"^-- (manifest|script|wanted)\n", rest, flags=re.M)
            sections = dict(zip(parts[1::2], parts[2::2]))
            script = [line for line in sections.get("script", "").split("\n")
                      if line and not line.startswith(("#", *_SHOWN_ALONE))]
            if _can_be_made(sections.get("manifest", ""), script):
                yield f"{file.stem}: {name}", sections["manifest"], script


def _can_be_made(manifest, script):
    if re.search(r"<\d+\*", manifest + "\n".join(script)):
        return False
    attaches = script.count("attach")
    if attaches == 0 or (attaches > 1 and "history" in manifest):
        return False
    return not any(_STEPPED & set(line.split(" ")[1:2]) for line in script)
