"""Builds the package for pip (PEP 517 and 660) by the standard library alone.

pip calls it as pyproject.toml says, from which its texts are read line by line: it has one value on
each line, and Python reads TOML itself from 3.11 on only.
"""

import base64
import hashlib
import io
import re
import tarfile
import zipfile
from pathlib import Path
from typing import Any, Dict, Iterable, List, Optional, Tuple

ROOT = Path(__file__).resolve().parent
# The earliest time that a zip can have, so that the same files are the same archive.
_TIME = (1980, 1, 1, 0, 0, 0)

Files = List[Tuple[str, bytes]]


def _version() -> str:
    found = re.search(r'^__version__ = "(.*)"$', (ROOT / "overlayd/__init__.py").read_text(), re.M)
    assert found is not None
    return found[1]


def _tables() -> Dict[str, Dict[str, str]]:
    """The texts of pyproject.toml, by table and key."""
    tables: Dict[str, Dict[str, str]] = {}
    table = ""
    for line in (ROOT / "pyproject.toml").read_text("utf-8").splitlines():
        if line.startswith("["):
            table = line.strip("[]")
        found = re.fullmatch(r'([\w-]+) = "(.*)"', line)
        if found:
            tables.setdefault(table, {})[found[1]] = found[2]
    return tables


def _metadata() -> bytes:
    project = _tables()["project"]
    head = (f"Metadata-Version: 2.1\nName: {project['name']}\nVersion: {_version()}\n"
            f"Summary: {project['description']}\nRequires-Python: {project['requires-python']}\n"
            "Description-Content-Type: text/markdown\n\n")
    return head.encode() + (ROOT / project["readme"]).read_bytes()


def _entry_points() -> bytes:
    tables = _tables()
    groups = [("console_scripts", tables["project.scripts"]),
              ("fsspec.specs", tables['project.entry-points."fsspec.specs"'])]
    text = "".join(f"[{name}]\n" + "".join(f"{key} = {value}\n" for key, value in group.items())
                   for name, group in groups)
    return text.encode()


def _package() -> Files:
    """The package's files, by their paths in an archive."""
    paths = [*ROOT.glob("overlayd/**/*.py"), ROOT / "overlayd/py.typed"]
    return [(path.relative_to(ROOT).as_posix(), path.read_bytes()) for path in sorted(paths)]


def _record(files: Iterable[Tuple[str, bytes]], own: str) -> bytes:
    lines = []
    for name, data in files:
        digest = base64.urlsafe_b64encode(hashlib.sha256(data).digest()).rstrip(b"=").decode()
        lines.append(f"{name},sha256={digest},{len(data)}\n")
    return "".join([*lines, f"{own},,\n"]).encode()


def _wheel(directory: str, content: Files) -> str:
    info = f"overlayd-{_version()}.dist-info"
    tags = "Wheel-Version: 1.0\nGenerator: overlayd\nRoot-Is-Purelib: true\nTag: py3-none-any\n"
    files = [*content, (f"{info}/METADATA", _metadata()), (f"{info}/WHEEL", tags.encode()),
             (f"{info}/entry_points.txt", _entry_points())]
    files.append((f"{info}/RECORD", _record(files, f"{info}/RECORD")))
    name = f"overlayd-{_version()}-py3-none-any.whl"
    with zipfile.ZipFile(Path(directory, name), "w", zipfile.ZIP_DEFLATED) as archive:
        for path, data in files:
            member = zipfile.ZipInfo(path, _TIME)
            member.external_attr = 0o644 << 16
            archive.writestr(member, data, zipfile.ZIP_DEFLATED)
    return name


def build_wheel(wheel_directory: str, config_settings: Any = None,
                metadata_directory: Optional[str] = None) -> str:
    """Writes a wheel into a directory; its name."""
    return _wheel(wheel_directory, _package())


def build_editable(wheel_directory: str, config_settings: Any = None,
                   metadata_directory: Optional[str] = None) -> str:
    """As build_wheel, of a package that is imported from where it stands."""
    return _wheel(wheel_directory, [("overlayd.pth", f"{ROOT}\n".encode())])


def build_sdist(sdist_directory: str, config_settings: Any = None) -> str:
    """Writes an archive of the sources into a directory; its name."""
    base = f"overlayd-{_version()}"
    own = [(name, (ROOT / name).read_bytes())
           for name in ("README.md", "API.md", "pyproject.toml", "wheel_backend.py")]
    with tarfile.open(Path(sdist_directory, f"{base}.tar.gz"), "w:gz") as archive:
        for path, data in [*_package(), *own, ("PKG-INFO", _metadata())]:
            member = tarfile.TarInfo(f"{base}/{path}")
            member.size, member.mode = len(data), 0o644
            archive.addfile(member, io.BytesIO(data))
    return f"{base}.tar.gz"
