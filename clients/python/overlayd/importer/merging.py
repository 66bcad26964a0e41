"""What layers show together, by the rules of overlayfs."""

from typing import List, Optional, Sequence, Tuple, cast

from .objects import Directory, File, Names, Object, Whiteout, all_in, link_times

Found = Tuple[int, Object]
Place = Tuple[int, Directory]


class Layer:
    """What a layer has, looked for when it is needed."""

    def tree(self) -> Directory:
        """All that stands in it, without bytes."""
        raise NotImplementedError

    def root(self) -> Directory:
        """The root, of which nothing but its own attributes is asked."""
        return self.tree()

    def largest(self) -> int:
        """How many bytes its largest file has; 0 where it has none."""
        sizes = (node.size for node in all_in(self.tree()) if isinstance(node, File))
        return max(sizes, default=0)


class TreeLayer(Layer):
    """A layer of which the tree is there."""

    def __init__(self, root: Directory) -> None:
        self._root = root

    def tree(self) -> Directory:
        return self._root


class _Goal:
    """The names that are looked for in the next layer: below the same directories, or where a
    redirect said so from the roots."""

    def __init__(self, name: str) -> None:
        self.names: Names = (name,)
        self.from_root = False
        self.ends = False

    def within(self, base: Directory) -> Optional[Object]:
        """What a layer has there. It may lead the search elsewhere for the layers below, or end
        it."""
        node: Object = base
        rest = len(self.names)
        while rest:
            rest -= 1
            assert isinstance(node, Directory)
            child = node.children.get(self.names[len(self.names) - 1 - rest])
            if child is None:
                return None
            if not isinstance(child, Directory):
                self.ends = True
                return None if rest or isinstance(child, Whiteout) else child
            if child.opaque:
                self.ends = True
            elif child.redirect is not None:
                self._lead(child.redirect, rest)
            node = child
        return node

    def _lead(self, redirect: str, rest: int) -> None:
        """Follows a redirect of the directory after which `rest` names are left."""
        split = len(self.names) - rest
        if redirect.startswith("/"):
            self.names = tuple(redirect[1:].split("/")) + self.names[split:]
            self.from_root = True
        else:
            self.names = self.names[:split - 1] + (redirect,) + self.names[split:]


class Merge:
    """Layers, the highest first; their trees are asked for when they are needed."""

    def __init__(self, layers: Sequence[Layer]) -> None:
        self._layers = list(layers)

    def under(self, root: Directory) -> "Merge":
        """The same layers with one more above them."""
        return Merge([TreeLayer(root), *self._layers])

    def roots(self) -> List[Place]:
        """The roots of the layers, down to one that hides those below it."""
        places = []
        for index, layer in enumerate(self._layers):
            root = layer.tree()
            places.append((index, root))
            if root.opaque:
                break
        return places

    def child(self, places: Sequence[Place], name: str) -> List[Found]:
        """What the layers have at a name of a merged directory: directories that are merged, the
        highest first, or one other object; nothing where there is none."""
        for index, base in places:
            first = base.children.get(name)
            if isinstance(first, Directory):
                break
            if first is not None:
                return [] if isinstance(first, Whiteout) else [(index, first)]
        else:
            return []
        found: List[Found] = []
        goal = _Goal(name)
        rest = list(places)
        while rest and not goal.ends:
            index, base = rest.pop(0)
            was_from_root = goal.from_root
            node = goal.within(base)
            if goal.from_root and not was_from_root:
                rest = self._roots_below(index)
            if node is None:
                continue
            if not isinstance(node, Directory):
                return found if found else [(index, node)]
            found.append((index, node))
        return found

    def _roots_below(self, index: int) -> List[Place]:
        return [place for place in self.roots() if place[0] > index]

    def places(self, names: Names) -> List[Place]:
        """The directories that are merged at these names; nothing where there is no directory."""
        places = self.roots()
        for name in names:
            found = self.child(places, name)
            if not found or not isinstance(found[0][1], Directory):
                return []
            places = cast(List[Place], found)
        return places

    def lookup(self, names: Names) -> Optional[Object]:
        """What the mount shows at these names."""
        if not names:
            return self._layers[0].root() if self._layers else None
        found = self.child(self.places(names[:-1]), names[-1])
        return found[0][1] if found else None

    def below(self, names: Names) -> Optional[Object]:
        """What the layers below the first one have where it has these names."""
        if not names:
            return self._layers[1].root() if len(self._layers) > 1 else None
        under = [place for place in self.places(names[:-1]) if place[0] > 0]
        found = self.child(under, names[-1])
        return found[0][1] if found else None

    def give_links(self, root: Directory) -> None:
        """Gives the directories of the first layer, which has this root, the times of the symbolic
        links that they show of the layers below."""
        todo = [(root, self.roots())]
        while todo:
            node, places = todo.pop()
            for _, below in reversed(places[1:]):
                node.links = {**node.links, **link_times(below)}
            for name, child in node.children.items():
                if isinstance(child, Directory) and len(places) > 1:
                    found = cast(List[Place], self.child(places, name))
                    if len(found) > 1:
                        todo.append((child, found))

    def bytes_of(self, names: Names, redirect: Optional[str]) -> Optional[File]:
        """The file of the layers below the first one that has the bytes of the first one's file at
        these names: it is looked for there, or where the file's redirect says."""
        if redirect is not None and redirect.startswith("/"):
            found = Merge(self._layers[1:]).lookup(tuple(redirect[1:].split("/")))
        else:
            found = self.below((*names[:-1], redirect or names[-1]))
        return found if isinstance(found, File) else None


def flatten(layers: Sequence[Layer]) -> Directory:
    """One layer that shows what these layers show, the highest first, with nothing below them."""
    merge = Merge(layers)
    places = merge.roots()
    root = _bare(places[0][1])
    todo = [(root, places)]
    while todo:
        directory, places = todo.pop()
        for name in sorted({name for _, node in places for name in node.children}):
            found = merge.child(places, name)
            if not found:
                continue
            top = found[0][1]
            if isinstance(top, Directory):
                bare = _bare(top)
                todo.append((bare, cast(List[Place], found)))
                directory.children[name] = bare
            else:
                directory.children[name] = top
    return root


def _bare(directory: Directory) -> Directory:
    """The directory without what is in it, and without marks."""
    bare = Directory(directory.mode, directory.uid, directory.gid, directory.attrs)
    bare.mtime = directory.mtime
    bare.links = directory.links
    return bare
