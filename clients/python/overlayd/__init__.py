"""A client of `overlayd serve`, an overlay mount engine behind a Unix socket.

    from overlayd import Client, Mask

    with Client("/run/overlay.socket") as client:
        client.arm(0, "/etc", Mask.CREATE)
        client.symlink("name", "/etc/link")
        print(client.notices())
"""

from .client import Client
from .embedded import Mount, mount
from .errors import BadReply, Disconnected, NoReply, UnknownRefusal, place_of
from .files import File
from .frames import Stat
from .habits import DirEntry
from .mount_path import MountPath
from .pipeline import Pending, Pipeline
from .tree_watch import CHANGES, TreeNotice, TreeWatch
from .watches import Mask, Notice

__version__ = "0.4.0"
__all__ = ["BadReply", "CHANGES", "Client", "DirEntry", "Disconnected", "File", "Mask", "Mount",
           "MountPath", "NoReply", "Notice", "Pending", "Pipeline", "Stat", "TreeNotice", "TreeWatch",
           "UnknownRefusal", "mount", "place_of"]
