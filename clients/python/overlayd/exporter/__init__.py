"""What a mount changed, as an upper directory of overlayfs or as a layer of an image.

    from overlayd import Client
    from overlayd.exporter import LowerTree, MountTree, changes, write_layer, write_upper

    lower = LowerTree("mount.toml")
    with Client("/run/overlay.socket") as client:
        mounted = MountTree(client)
        found = changes(lower, mounted)
        write_upper(found, mounted, "upper")
        write_layer(found, mounted, stream)

Trees of other kinds can be compared too: see `Tree`.
"""

from .comparing import Change, changes, each_change
from .layers import write_layer
from .manifests import LowerTree, Manifest, SavedTree
from .mounts import MountTree
from .trees import DirectoryTree, Entry, MemoryTree, Tree
from .unsayable import Unsayable
from .uppers import write_upper

__all__ = ["Change", "DirectoryTree", "Entry", "LowerTree", "Manifest", "MemoryTree", "MountTree",
           "SavedTree", "Tree", "Unsayable", "changes", "each_change", "write_layer", "write_upper"]
