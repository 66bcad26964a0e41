"""Refuses requests for memory that a program makes, by a library that is preloaded into it."""
import mmap
import os
import shutil
import struct
import subprocess
import tempfile
from pathlib import Path

SOURCE = Path(__file__).resolve().parent / "refuse.c"
SECONDS = 60
EACH = -1
_NONE_MODE, _NTH_MODE, _EACH_MODE = 0, 1, 2
_PAGE = struct.Struct("4q")


class Wrong(Exception):
    """What a test found."""


def expect(got, wanted, what):
    if got != wanted:
        raise Wrong(f"{what}: {got!r}, and not {wanted!r}")


def build_library(folder):
    """Builds the library in a folder; None where there is no C compiler."""
    compiler = shutil.which(os.environ.get("CC") or "cc")
    if compiler is None:
        return None
    library = Path(folder) / "refuse.so"
    subprocess.run([compiler, "-O1", "-shared", "-fPIC", "-o", library, SOURCE], check=True)
    return library


class Refusals:
    """Which requests of one program are refused, and how many were met meanwhile."""

    def __init__(self, library):
        file, self.path = tempfile.mkstemp(dir=library.parent)
        os.ftruncate(file, mmap.PAGESIZE)
        self.page = mmap.mmap(file, mmap.PAGESIZE)
        os.close(file)
        self.environment = dict(os.environ, LD_PRELOAD=str(library), REFUSING=self.path)
        self.met = self.refused = 0

    def begin(self, nth):
        """Has the nth request from now on refused, or EACH."""
        _PAGE.pack_into(self.page, 0, _NONE_MODE, max(nth, 0), 0, 0)
        mode = _EACH_MODE if nth == EACH else _NTH_MODE
        struct.pack_into("q", self.page, 0, mode)

    def end(self):
        """Has none refused any more, and counts those that were met and refused."""
        struct.pack_into("q", self.page, 0, _NONE_MODE)
        _, _, self.met, self.refused = _PAGE.unpack_from(self.page)

    def close(self):
        self.page.close()
        os.unlink(self.path)
