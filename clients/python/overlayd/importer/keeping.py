"""Which things of a source an import keeps."""

from typing import NamedTuple

from . import limits


class Keep(NamedTuple):
    """What is kept beside bytes, modes, owners and user attributes: `times`, `devices` (with fifos
    and sockets), `xattrs` (attributes outside of `user.`) and `private` ones, which begin with
    `user.overlayd.`. A file has at most `most` bytes; `asked` says that the user said so."""

    times: bool = False
    devices: bool = False
    xattrs: bool = False
    private: bool = False
    most: int = limits.FILE_UNASKED
    asked: bool = False
