"""What the tests of the importer share: tars, images, runs of the command and of overlayd."""

import contextlib
import errno
import gzip
import hashlib
import io
import json
import os
import subprocess
import sys
import tarfile
import tempfile
import unittest
from pathlib import Path
from typing import Any, Dict, Iterable, List, NamedTuple, NoReturn, Optional, Sequence, Union

from overlayd.importer.command import main

REPOSITORY = Path(__file__).resolve().parents[3]


class Run(NamedTuple):
    """What a run of the command came to."""

    status: int
    manifest: str
    errors: List[str]


def without_times(words: Sequence[str]) -> List[str]:
    """The words of a command, which keeps no times where they don't say so: when a test wrote its
    files is nothing that it can expect."""
    return [*words] if {"--times", "--no-times"} & {*words} else [*words, "--no-times"]


def run_import(*words: str) -> Run:
    """Runs `overlayd-import` with a file as output; without times where it isn't said."""
    with tempfile.TemporaryDirectory() as folder:
        output = Path(folder, "manifest.toml")
        errors = io.StringIO()
        with contextlib.redirect_stderr(errors):
            status = main([*without_times(words), "-o", str(output)])
        manifest = output.read_text("utf-8") if output.exists() else ""
        assert os.listdir(folder) == (["manifest.toml"] if status == 0 else [])
    return Run(status, manifest, errors.getvalue().splitlines())


def import_to(manifest: Path, words: Sequence[str]) -> None:
    """Imports what must not fail, and says nothing."""
    with contextlib.redirect_stderr(io.StringIO()) as errors:
        status = main([*without_times(words), "-q", "-o", str(manifest)])
    assert status == 0, errors.getvalue()


class Member(NamedTuple):
    """A member of a tar; `kind` as tarfile has it."""

    name: Union[str, bytes]
    kind: bytes = tarfile.REGTYPE
    data: bytes = b""
    mode: int = 0o644
    uid: int = 0
    gid: int = 0
    link: str = ""
    attrs: Optional[Dict[str, str]] = None
    headers: Optional[Dict[str, str]] = None
    device: Sequence[int] = (0, 0)


def directory(name: str, mode: int = 0o755, **more: Any) -> Member:
    """A directory."""
    return Member(name, tarfile.DIRTYPE, mode=mode, **more)


def file(name: Union[str, bytes], data: bytes = b"", **more: Any) -> Member:
    """A file."""
    return Member(name, tarfile.REGTYPE, data, **more)


def tar_of(members: Iterable[Member]) -> bytes:
    """A tar of these members in their order."""
    out = io.BytesIO()
    with tarfile.open(fileobj=out, mode="w", format=tarfile.PAX_FORMAT, encoding="utf-8",
                      errors="surrogateescape") as tar:
        for member in members:
            name = member.name
            info = tarfile.TarInfo(
                name if isinstance(name, str) else name.decode("utf-8", "surrogateescape"))
            info.type = member.kind
            info.size = len(member.data)
            info.mode, info.uid, info.gid = member.mode, member.uid, member.gid
            info.linkname = member.link
            info.devmajor, info.devminor = member.device
            info.pax_headers = {f"SCHILY.xattr.{key}": value
                                for key, value in (member.attrs or {}).items()}
            info.pax_headers.update(member.headers or {})
            tar.addfile(info, io.BytesIO(member.data))
    return out.getvalue()


def saved_image(layers: Sequence[bytes], tag: str = "test:latest") -> bytes:
    """An archive as `docker save` writes it, of layers from the lowest."""
    names = [f"{number:064x}/layer.tar" for number in range(len(layers))]
    listed = [{"Config": "config.json", "RepoTags": [tag], "Layers": names}]
    members = [file(name, layer) for name, layer in zip(names, layers)]
    members.append(file("config.json", b"{}"))
    members.append(file("manifest.json", json.dumps(listed).encode()))
    return tar_of(members)


def write_layout(folder: Path, layers: Sequence[bytes], platform: str = "linux/amd64") -> None:
    """An OCI layout of layers from the lowest, compressed by gzip."""

    def put(data: bytes) -> Dict[str, Any]:
        digits = hashlib.sha256(data).hexdigest()
        (folder / "blobs/sha256" / digits).write_bytes(data)
        return {"digest": f"sha256:{digits}", "size": len(data)}

    (folder / "blobs/sha256").mkdir(parents=True)
    (folder / "oci-layout").write_text('{"imageLayoutVersion": "1.0.0"}')
    system, architecture = platform.split("/")
    config = put(json.dumps({"os": system, "architecture": architecture}).encode())
    blobs = [put(gzip.compress(layer, mtime=0)) for layer in layers]
    manifest = put(json.dumps({"config": config, "layers": blobs}).encode())
    (folder / "index.json").write_text(json.dumps({"manifests": [manifest]}))


def skip(test: str, reason: str) -> NoReturn:
    """Skips a test with a line that says why."""
    print(f"skipped: {test}: {reason}", file=sys.stderr)
    raise unittest.SkipTest(reason)


def set_attribute(test: str, path: Path, name: str, value: bytes) -> None:
    """Sets an extended attribute; the test is skipped where that can't be."""
    try:
        os.setxattr(path, name, value, follow_symlinks=False)
    except AttributeError:
        skip(test, "this system has no extended attributes")
    except OSError as error:
        if error.errno not in (errno.ENOTSUP, errno.EPERM):
            raise
        skip(test, f"{name} can't be set here")


def overlayd() -> Optional[str]:
    """The program, where it was built."""
    named = os.environ.get("OVERLAYD")
    path = Path(named) if named else REPOSITORY / "out" / "overlayd"
    return str(path) if path.is_file() else None


def show(program: str, manifest: Path) -> List[str]:
    """The lines of the merged tree."""
    done = subprocess.run([program, "show", str(manifest)], capture_output=True, check=False)
    assert done.returncode == 0, done.stderr
    return done.stdout.decode("ascii").splitlines()


def faults(program: str, manifest: Path) -> List[str]:
    """What a manifest is refused with, if it is."""
    done = subprocess.run([program, "show", str(manifest)], capture_output=True, check=False)
    assert (done.returncode == 0) == (done.stderr == b""), done.stderr
    return done.stderr.decode("ascii").splitlines()


def play(program: str, manifest: Path, script: str) -> List[str]:
    """The lines that a script prints."""
    done = subprocess.run([program, "play", str(manifest)], input=script.encode("ascii"),
                          capture_output=True, check=False)
    assert done.returncode == 0, done.stderr
    return done.stdout.decode("ascii").splitlines()


def escaped(raw: bytes) -> str:
    """Bytes as the program prints them."""
    text = "".join(chr(byte) if 0x21 <= byte <= 0x7E and byte != 0x5C else f"\\x{byte:02x}"
                   for byte in raw)
    return text or "\\-"
