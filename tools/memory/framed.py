"""Lines of scripts as frames, and the replies to these as what the lines print."""
import errno
import stat
import sys
from pathlib import Path

sys.path.insert(0, str(Path(__file__).resolve().parents[2] / "clients" / "python"))
from overlayd import frames  # noqa: E402
from overlayd.frames import Op, Stat  # noqa: E402
from overlayd.watches import Notice  # noqa: E402

FLAGS = {"r": 0, "w": 1, "b": 2, "c": 4, "x": 8, "t": 16, "a": 32, "d": 64}
KINDS = {stat.S_IFDIR: "d", stat.S_IFREG: "f", stat.S_IFLNK: "l"}


def octal(word):
    return int(word, 8)


def hexadecimal(word):
    return int(word, 16)


def flags(word):
    return sum(FLAGS[letter] for letter in word)


def whence(word):
    return ["set", "cur", "end"].index(word)


# Of each call its op, and how the words of a line become the fields of a request.
CALLS = {
    "stat": (Op.STAT, str.encode), "mkdir": (Op.MKDIR, octal, str.encode),
    "unlink": (Op.UNLINK, str.encode), "rmdir": (Op.RMDIR, str.encode),
    "rename": (Op.RENAME, str.encode, str.encode), "open": (Op.OPEN, flags, octal, str.encode),
    "read": (Op.READ, int, int), "write": (Op.WRITE, int, str.encode),
    "seek": (Op.SEEK, int, int, whence), "fstat": (Op.FSTAT, int), "list": (Op.NAMES, int, int),
    "close": (Op.CLOSE, int), "arm": (Op.ARM, int, hexadecimal, str.encode),
    "disarm": (Op.DISARM, int), "notices": (Op.NOTICES, int), "detach": (Op.DETACH,),
}


def request_of(verb, *fields):
    """The frame of a call. In a frame an open always has a mode, and its path behind that."""
    op, *forms = CALLS[verb]
    if op is Op.OPEN:
        fields = [fields[0], *fields[2:], *(["644"] if len(fields) < 3 else []), fields[1]]
    return frames.request(op, *(form(field) for form, field in zip(forms, fields)))


def escaped(data):
    return "".join(chr(byte) if 0x21 <= byte <= 0x7e and byte != 0x5c else f"\\x{byte:02x}"
                   for byte in data) or "\\-"


def spelled(answer):
    """What a line prints of an answer."""
    if isinstance(answer, Stat):
        return (f"{KINDS[stat.S_IFMT(answer.st_mode)]} {stat.S_IMODE(answer.st_mode):04o}"
                f" {answer.st_uid} {answer.st_gid} {answer.st_size} {answer.st_nlink}")
    if isinstance(answer, Notice):
        name = escaped(answer.name.encode("utf-8", "surrogateescape"))
        return f"{answer.wd}:{int(answer.mask):08x}:{answer.cookie}:{name}"
    if isinstance(answer, list):
        return " ".join(map(spelled, answer))
    return escaped(answer) if isinstance(answer, bytes) else str(answer)


def printed(client, verb, body):
    """What the line of a call prints for its reply, and the reply's place, if it has one."""
    reply = frames.reply(CALLS[verb][0], body)
    if reply.place is None:
        return f"{client} not taken {errno.errorcode[reply.refused]}", None
    if reply.refused is not None:
        return f"{client} {errno.errorcode[reply.refused]}", reply.place
    if verb == "detach":
        return f"{client} detached", reply.place
    answer = None if reply.answer is None else spelled(reply.answer)
    return f"{client} ok {answer}" if answer else f"{client} ok", reply.place
