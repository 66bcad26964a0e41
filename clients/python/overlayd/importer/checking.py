"""Finds all faults of a manifest, each with its line and with what would be allowed."""

import os
import stat
from typing import Any, Callable, Dict, Iterator, List, NamedTuple, Optional, Sequence, Tuple

from . import limits
from .doubts import Doubt, doubts_of
from .toml import Found, NotToml, Other, Table, read

KINDS = ("dir", "file", "symlink", "whiteout", "link")
_KIND_WORDS = "dir, file, symlink, whiteout or link"
# The key, the type of its value, and the kinds that have it.
_KEYS: Dict[str, Tuple[type, Tuple[str, ...]]] = {
    "path": (str, KINDS), "kind": (str, KINDS), "mode": (int, ("dir", "file")),
    "uid": (int, ("dir", "file", "symlink")), "gid": (int, ("dir", "file", "symlink")),
    "attrs": (list, ("dir", "file")), "text": (str, ("file",)), "hex": (str, ("file",)),
    "zeros": (int, ("file",)), "blob": (int, ("file",)), "at": (int, ("file",)),
    "size": (int, ("file",)), "to": (str, ("link",)), "target": (str, ("symlink",)),
    "opaque": (bool, ("dir",)), "redirect": (str, ("dir",)),
}
_TYPES = {str: "a text", int: "a whole number", bool: "true or false", list: "an array of arrays "
          "of two texts", Table: "a table"}
_ORDER = ("kind", "path", "key", "value", "parent", "exists", "link")
_TOP = ("key", "redirect_dir", "metacopy", "history", "file_limit", "blobs", "layers")
_OPTIONS = ("layer", "upper", "redirect_dir", "metacopy", "history", "file_limit", "blobs")
_BYTES = ("text", "hex", "zeros", "blob")
_UNKNOWN = "of a kind that is none"
_REDIRECT = "a redirect is one name, or a path from / with a name"


class Fault(NamedTuple):
    """What is wrong in a line; `word` is the fault that overlayd reports for it."""

    line: int
    place: str
    word: str
    what: str


class Checked(NamedTuple):
    """What a check came to: the faults by their lines, what overlayd says, if anything, and what
    is no fault and likely a mistake. Of a saved upper also what overlayd says with --upper, if
    anything."""

    faults: List[Fault]
    first: Optional[str]
    layers: int = 0
    entries: int = 0
    doubts: Sequence[Doubt] = ()
    is_upper: bool = False
    first_above: Optional[str] = None


def check(data: bytes, folder: str = "") -> Checked:
    """The faults of a manifest that is in a folder, from which its blobs are looked for."""
    try:
        top = read(data)
    except NotToml as fault:
        return Checked([Fault(fault.line, "", "not TOML", str(fault))], "manifest: not TOML")
    found = _Check(folder).manifest(top)
    return found if found.faults else found._replace(doubts=doubts_of(top, data))


def _is(value: Any, kind: type) -> bool:
    return isinstance(value, kind) and (kind is not int or not isinstance(value, bool))


def _named(value: Any) -> str:
    """What a value is, in words."""
    if isinstance(value, Other):
        return f"{value.text} is a number with a point or a time"
    for kind, words in ((str, "a text"), (bool, "true or false"), (int, "a whole number"),
                        (list, "an array")):
        if _is(value, kind):
            return f"it is {words}"
    return "it is a table"


class _Check:
    """Goes through a manifest and keeps what it finds."""

    def __init__(self, folder: str) -> None:
        self.faults: List[Fault] = []
        self.place = ""
        self.entries = 0
        self.file_limit = limits.FILE_LIMIT
        # the sizes of the blobs, None of one without; None where the key is at fault
        self.blobs: Optional[List[Optional[int]]] = []
        self._folder = folder

    def manifest(self, top: Table) -> Checked:
        """The whole: its options, and then entry by entry."""
        for key, found in top.members.items():
            if key not in _OPTIONS:
                self.tell(found.line, key, "key", "no such key; at the top there are "
                          f"{', '.join(_OPTIONS[:-1])} and {_OPTIONS[-1]}")
        has_upper = self.upper(top)
        self.option(top, "redirect_dir", str, _is_switch, '"on" or "off"')
        self.metacopy(top, has_upper)
        self.option(top, "history", int, _is_history,
                    f"from {limits.HISTORY_LEAST} to {limits.HISTORY_MOST}")
        self.limit(top)
        names = self.blob_names(top)
        given, before = top.members.get("layer"), len(self.faults)
        layers = self.tables(given, "layer")
        is_upper = len(layers) == 1 and set(top.members) == {"layer"}
        if len(self.faults) == before:
            self.count_layers(given, len(layers), has_upper, is_upper)
        if is_upper:
            # whose bounds are those of the manifest that it will go on with
            self.file_limit, self.blobs = limits.FILE_LIMIT_MOST, None
        whole = sorted(self.faults, key=lambda fault: _TOP.index(fault.word))
        firsts = [f"manifest: {fault.word}" for fault in whole]
        firsts += self.read_blobs(names)
        above = len(firsts)
        for number, layer in enumerate(layers):
            firsts += self.layer(number, layer)
        first_above = firsts[above] if is_upper and len(firsts) > above else None
        # the keys of layers are of the whole too, and come before all entries
        firsts.sort(key=lambda first: first != "manifest: key")
        faults = sorted(self.faults, key=lambda fault: fault.line)
        return Checked(faults, firsts[0] if firsts else None, len(layers), self.entries,
                       is_upper=is_upper, first_above=first_above)

    def count_layers(self, given: Optional[Found], count: int, has_upper: bool,
                     is_upper: bool) -> None:
        """Tells where there are too few or too many."""
        if limits.LAYERS_LEAST <= count <= limits.LOWERS_MOST + has_upper:
            return
        wanted = ("2 to 17 layers, the upper and then 1 to 16 lower ones from the top"
                  if has_upper else "2 to 16 layers, all lower ones, from the top")
        saved = "; one alone is a saved upper, which --upper of overlayd takes" if is_upper else ""
        self.tell(given.line if given else 1, "layer", "layers",
                  f"{wanted}, and not {count}{saved}")

    def tell(self, line: int, key: str, word: str, what: str) -> None:
        """Keeps a fault."""
        place = ": ".join(part for part in (self.place, key) if part)
        self.faults.append(Fault(line, place, word, what))

    def option(self, top: Table, key: str, kind: type, allowed: Callable[[Any], bool],
               words: str) -> None:
        """A key at the top with a value of its own."""
        found = top.members.get(key)
        if found is None:
            return
        if not _is(found.value, kind):
            self.tell(found.line, key, "key", f"{_TYPES[kind]}, {words}; {_named(found.value)}")
        elif not allowed(found.value):
            self.tell(found.line, key, key, f"{words}, and not {_short(found.value)}")

    def upper(self, top: Table) -> bool:
        """Whether the first layer is the upper one, as it is where nothing else is said."""
        found = top.members.get("upper")
        if found is None or _is(found.value, bool):
            return found is None or bool(found.value)
        self.tell(found.line, "upper", "key", f"{_TYPES[bool]}; {_named(found.value)}")
        return True

    def metacopy(self, top: Table, has_upper: bool) -> None:
        """Whether files are copied up without their bytes, which needs redirects where anything is
        copied up."""
        redirects = top.members.get("redirect_dir")
        if not has_upper or redirects is not None and redirects.value == "on":
            self.option(top, "metacopy", str, _is_switch, '"on" or "off"')
        else:
            self.option(top, "metacopy", str, lambda word: word == "off",
                        '"off", where redirect_dir isn\'t "on"')

    def limit(self, top: Table) -> None:
        """The most bytes of a file; where what is said of it is at fault, the files aren't."""
        self.option(top, "file_limit", int, _is_file_limit,
                    f"from {limits.FILE_LIMIT_LEAST} to {limits.FILE_LIMIT_MOST}")
        found = top.members.get("file_limit")
        if found is not None:
            is_limit = _is(found.value, int) and _is_file_limit(found.value)
            self.file_limit = found.value if is_limit else limits.FILE_LIMIT_MOST

    def blob_names(self, top: Table) -> List[Found]:
        """The names of the blobs; where they are at fault, what is said of their bytes isn't."""
        found = top.members.get("blobs")
        if found is None:
            return []
        names = found.value if isinstance(found.value, list) else [found]
        bad = [one for one in names if not isinstance(one.value, str)]
        if names is found.value and not bad:
            return names
        self.blobs = None
        self.tell(found.line, "blobs", "blobs",
                  f"an array of texts, the names of files; {_named((bad or names)[0].value)}")
        return []

    def read_blobs(self, names: List[Found]) -> Iterator[str]:
        """Looks at the blobs; what overlayd would say of each that can't be read."""
        for number, found in enumerate(names):
            size, why = _size_of(os.path.join(self._folder, found.value))
            assert self.blobs is not None
            self.blobs.append(size)
            if why:
                self.tell(found.line, "blobs", "blobs",
                          f"blob {number} can't be read, {_short(found.value)}: {why}")
                yield f"cannot read blob {number}"

    def tables(self, found: Optional[Found], key: str) -> List[Found]:
        """The tables of an array."""
        if found is None:
            return []
        if not isinstance(found.value, list):
            self.tell(found.line, key, "key", f"an array of tables; {_named(found.value)}")
            return []
        for one in found.value:
            if not isinstance(one.value, Table):
                self.tell(one.line, key, "key", f"an array of tables; {_named(one.value)}")
        return [one for one in found.value if isinstance(one.value, Table)]

    def layer(self, number: int, layer: Found) -> Iterator[str]:
        """A layer and its entries; what overlayd would say of each that is at fault."""
        self.place = f"layer {number}"
        before = len(self.faults)
        for key, found in layer.value.members.items():
            if key != "entry":
                self.tell(found.line, key, "key", "no such key; a layer has entry alone")
        entries = self.tables(layer.value.members.get("entry"), "entry")
        if len(self.faults) > before:
            yield "manifest: key"
        described: Dict[str, str] = {}
        for index, entry in enumerate(entries):
            before = len(self.faults)
            self.entries += 1
            _Entry(self, f"layer {number} entry {index}", entry, described).check()
            words = {fault.word for fault in self.faults[before:]}
            if words:
                first = next(word for word in _ORDER if word in words)
                yield f"layer {number} entry {index}: {first}"


class _Entry:
    """An entry, among those that its layer has before it."""

    def __init__(self, within: _Check, place: str, entry: Found, before: Dict[str, str]) -> None:
        self._within = within
        self._line = entry.line
        self._members: Dict[str, Found] = entry.value.members
        self._before = before
        within.place = place

    def check(self) -> None:
        """Tells each fault of it."""
        path, kind = self._text("path"), self._text("kind")
        if path is not None:
            self._within.place += f": {_short(path)[1:-1]}"
        kind = self._kind(kind)
        fault = None if path is None else path_fault(path)
        if fault is not None:
            self._tell("path", "path", fault)
            path = None
        for key, found in self._members.items():
            self._key(key, found, kind, path)
        if kind is not None:
            self._required(kind)
        if path is not None:
            self._place(path, kind)

    def _tell(self, key: str, word: str, what: str) -> None:
        found = self._members.get(key)
        self._within.tell(found.line if found else self._line, key, word, what)

    def _text(self, key: str) -> Optional[str]:
        """The text of `path` or `kind`, each of which has its own fault where it is none."""
        found = self._members.get(key)
        if found is not None and isinstance(found.value, str):
            return found.value
        wanted = f"a text, {_KIND_WORDS}" if key == "kind" else "a path text"
        self._tell(key, key, f"{wanted}; {_named(found.value) if found else 'it is missing'}")
        return None

    def _kind(self, kind: Optional[str]) -> Optional[str]:
        if kind is not None and kind not in KINDS:
            self._tell("kind", "kind", f"{_KIND_WORDS}, and not {_short(kind)}")
            return None
        return kind

    def _key(self, key: str, found: Found, kind: Optional[str], path: Optional[str]) -> None:
        """A key and its value, if the entry may have it."""
        if key not in _KEYS:
            of_kind = [name for name, (_, kinds) in _KEYS.items() if kind is None or kind in kinds]
            what = f"kind {kind}" if kind else "an entry"
            self._tell(key, "key", f"no such key; {what} has {', '.join(of_kind)}")
            return
        of_type, kinds = _KEYS[key]
        if kind is not None and kind not in kinds:
            self._tell(key, "key", f"not of kind {kind}; kind {' and '.join(kinds)} may have it")
        elif key in ("opaque", "redirect") and path == "/":
            self._tell(key, "key", "not at /, which has no marks")
        elif key in ("path", "kind"):
            return
        elif not _is(found.value, of_type) or key == "attrs" and not _are_pairs(found.value):
            self._tell(key, "key", f"{_TYPES[of_type]}; {_named(found.value)}")
        else:
            for what in _value_faults(key, found.value, self._within.file_limit):
                self._tell(key, "value", what)
            if key == "blob":
                self._part()

    def _required(self, kind: str) -> None:
        for key, of_kind in (("target", "symlink"), ("to", "link")):
            if kind == of_kind and key not in self._members:
                self._tell(key, "key", f"a text; it is missing, and kind {kind} needs it")
        given = [key for key in _BYTES if key in self._members]
        if kind == "file" and len(given) > 1:
            self._tell(given[1], "key", f"at most one of text, hex, zeros and blob, and not "
                       f"{given[0]} too")
        for key in ("at", "size") if kind == "file" and "blob" not in given else ():
            if key in self._members:
                self._tell(key, "key", "only beside blob")

    def _part(self) -> None:
        """Whether the bytes are in the blob that is named."""
        number, start, size = (self._whole(key) for key in ("blob", "at", "size"))
        blobs = self._within.blobs
        if blobs is None or number is None:
            return
        if not 0 <= number < len(blobs):
            there = f"there are {len(blobs)}" if blobs else "there is none"
            self._tell("blob", "value", f"the number of a blob, of which {there}, from 0")
            return
        whole, start = blobs[number], start or 0
        if whole is None or start < 0 or size is not None and size < 0:
            return
        if start > whole or size is not None and size > whole - start:
            self._tell("blob" if size is None else "size", "value", f"blob {number} has {whole} "
                       f"bytes, and not {start if size is None else start + size}")
        elif whole - start > self._within.file_limit and size is None:
            self._tell("blob", "value", f"at most {self._within.file_limit} bytes")

    def _whole(self, key: str) -> Optional[int]:
        """The whole number at a key, if there is one."""
        found = self._members.get(key)
        return found.value if found is not None and _is(found.value, int) else None

    def _place(self, path: str, kind: Optional[str]) -> None:
        """Whether the entry can stand where it says, after those before it."""
        before = self._before
        parent = path.rpartition("/")[0] or "/"
        if path == "/":
            if kind is not None and kind != "dir":
                self._tell("path", "exists", "/ is a directory; one entry of kind dir may have it")
            elif path in before:
                self._tell("path", "exists", "the second entry at /; one alone may be there")
        elif parent != "/" and before.get(parent) not in ("dir", _UNKNOWN):
            there = f"of kind {before[parent]}" if parent in before else "not described before"
            self._tell("path", "parent", f"{_short(parent)[1:-1]} is {there}; an earlier entry of "
                       "kind dir has to be")
        elif path in before:
            self._tell("path", "exists", "an earlier entry of this layer describes it")
        if kind == "link" and path != "/":
            self._link(before)
        before.setdefault(path, kind or _UNKNOWN)

    def _link(self, before: Dict[str, str]) -> None:
        found = self._members.get("to")
        if found is None or not isinstance(found.value, str):
            return
        fault = path_fault(found.value)
        kind = before.get(found.value)
        if fault is not None:
            self._tell("to", "link", fault)
        elif kind not in ("file", "symlink", _UNKNOWN):
            there = f"it is of kind {kind}" if kind else "nothing is described there before"
            self._tell("to", "link", f"the path of an earlier entry of kind file or symlink of "
                       f"this layer; {there}")


def _short(value: Any) -> str:
    """A value in a line, the beginning of a long one."""
    text = f'"{ascii(value)[1:-1]}"' if isinstance(value, str) else ascii(value)
    return text if len(text) <= 60 else text[:57] + "..."


def _is_switch(value: str) -> bool:
    return value in ("on", "off")


def _size_of(path: str) -> Tuple[Optional[int], str]:
    """How many bytes a file has, or why it can't be read; neither of a pipe or a device."""
    try:
        status = os.stat(path)
    except (OSError, ValueError) as fault:
        return None, getattr(fault, "strerror", None) or "no name of a file"
    if stat.S_ISDIR(status.st_mode):
        return None, "a directory"
    if not os.access(path, os.R_OK):
        return None, "not to be read"
    return (status.st_size if stat.S_ISREG(status.st_mode) else None), ""


def _is_history(value: int) -> bool:
    return limits.HISTORY_LEAST <= value <= limits.HISTORY_MOST


def _is_file_limit(value: int) -> bool:
    return limits.FILE_LIMIT_LEAST <= value <= limits.FILE_LIMIT_MOST


def path_fault(text: str) -> Optional[str]:
    """Why a text is no path; None where it is one."""
    raw = text.encode("utf-8")
    if len(raw) > limits.PATH_BYTES:
        return f"a path has at most {limits.PATH_BYTES} bytes, and not {len(raw)}"
    if not text.startswith("/"):
        return f'a path begins with "/", and not {_short(text)}'
    for name in raw[1:].split(b"/") if text != "/" else []:
        if len(name) > limits.NAME_BYTES:
            return f"a name has at most {limits.NAME_BYTES} bytes, and not {len(name)}"
        if name in (b"", b".", b"..") or b"\0" in name:
            return "names follow one / each, and none is empty, . or .. or has a NUL"
    return None


def _are_pairs(values: List[Found]) -> bool:
    """Whether each is an array of two texts."""
    return all(isinstance(one.value, list) and len(one.value) == 2
               and all(isinstance(part.value, str) for part in one.value) for one in values)


def _value_faults(key: str, value: Any, file_limit: int) -> Iterator[str]:
    """What is wrong with a value that has the right type, where a file has at most so many bytes.
    """
    most = {"mode": limits.MODE_BITS, "uid": limits.OWNER_MOST, "gid": limits.OWNER_MOST,
            "zeros": file_limit, "size": file_limit}.get(key)
    if key == "at" and value < 0:
        yield f"from 0, and not {value}"
    if most is not None and not 0 <= value <= most:
        shown = "0o7777" if key == "mode" else str(most)
        yield f"from 0 to {shown}, and not {value}"
    if key == "text" and len(value.encode("utf-8")) > file_limit:
        yield f"at most {file_limit} bytes"
    if key == "hex":
        if len(value) % 2 or value.strip("0123456789abcdef"):
            yield "two lower case hexadecimal digits for each byte"
        elif len(value) > 2 * file_limit:
            yield f"at most {file_limit} bytes"
    if key == "target" and not (0 < len(value.encode("utf-8")) <= limits.TARGET_BYTES
                                and "\0" not in value):
        yield f"1 to {limits.TARGET_BYTES} bytes without NUL"
    if key == "redirect" and not _is_redirect(value):
        yield f"{_REDIRECT}, and not {_short(value)}"
    if key == "attrs":
        yield from _attribute_faults(value)


def _is_redirect(text: str) -> bool:
    if "/" in text:
        return text != "/" and path_fault(text) is None
    return path_fault("/" + text) is None if text else False


def _attribute_faults(pairs: List[Found]) -> Iterator[str]:
    seen = set()
    for number, pair in enumerate(pairs):
        name, value = (part.value for part in pair.value)
        raw = name.encode("utf-8")
        if not name.startswith("user.") or name == "user." or b"\0" in raw \
                or len(raw) > limits.NAME_BYTES:
            yield f"a name begins with user., has more, and 255 bytes at most: {_short(name)}"
        if len(value.encode("utf-8")) > limits.VALUE_BYTES:
            yield f"the value of {_short(name)} has more than {limits.VALUE_BYTES} bytes"
        if name in seen:
            yield f"{_short(name)} is there twice"
        if number == limits.ATTRIBUTES_MOST:
            yield f"there are more than {limits.ATTRIBUTES_MOST}"
        seen.add(name)
