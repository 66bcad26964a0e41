"""Times of symbolic links, which attributes of their directories have: shown, and kept."""

import errno
import os
import tarfile
import time
import unittest

from overlayd.exporter.command import main as export

from .bridges import Bridge, ServerCase, of_sockets
from .kernel import ROOT, SET_ATIME, SET_MTIME, SET_UID, tick
from .played import ATTRS, GETATTR, LINK, STAT, Played, attr, made, refused, texts
from .test_bridge_inside import EngineCase

EXCHANGE = 2
LINKS = "user.overlayd.links."
META = "user.overlayd.meta"
LONG_AGO = (315532800, 0)  # what has no time, where times are kept
TREE = """redirect_dir = "on"
layer = [{ entry = [
{ path = "/", kind = "dir", attrs = [["user.a", "one"], ["user.overlayd.links.0",
  "1577836800.000000000/awk/nawk//1600000000.123456789/sh/file/gone"]] },
] }, { entry = [
{ path = "/awk", kind = "symlink", target = "mawk" },
{ path = "/nawk", kind = "symlink", target = "mawk" },
{ path = "/sh", kind = "symlink", target = "dash" },
{ path = "/none", kind = "symlink", target = "x" },
{ path = "/file", kind = "file" },
{ path = "/d", kind = "dir", attrs = [["user.overlayd.links.1", "-2.500000000/early"],
  ["user.overlayd.links.47", "7.000000008/late"]] },
{ path = "/d/early", kind = "symlink", target = "x" },
{ path = "/d/late", kind = "symlink", target = "x" },
{ path = "/d/f", kind = "file" },
{ path = "/d/g", kind = "file" },
{ path = "/e", kind = "dir" },
{ path = "/e/l", kind = "symlink", target = "x" },
] }]"""
TOLD = {"awk": (1577836800, 0), "nawk": (1577836800, 0), "sh": (1600000000, 123456789),
        "none": LONG_AGO, "file": LONG_AGO}


def times(attr):
    """Of access, change and status."""
    return [(attr.atime, attr.atimensec), (attr.mtime, attr.mtimensec),
            (attr.ctime, attr.ctimensec)]


def changed(attr):
    return attr.mtime, attr.mtimensec


def groups(value):
    """What a value says, by its form: the names of each time."""
    found = {}
    for group in value.decode().split("//"):
        head, *names = group.split("/")
        assert head not in found and names
        found[head] = set(names)
    return found


class Case(ServerCase):
    MANIFEST = TREE

    def begun(self, server, *options):
        return self.bridge(server, "--times", *options)

    def again(self, server, *paths):
        """The times of change that a new mount shows."""
        with Bridge(server.path, "--times") as kernel:
            return [changed(kernel.walk(path).attr) for path in paths]

    def values(self, client, path):
        """The attributes of a directory with times of links, by their numbers."""
        return {int(name[len(LINKS):]): client.getxattr(path, name)
                for name in client.listxattr(path) if name.startswith(LINKS)}


class Shows(Case):
    def test_where_a_link_is_looked_at(self):
        server = self.served()
        kernel = self.begun(server)
        for name, told in TOLD.items():
            entry = kernel.lookup(ROOT, name)
            self.assertEqual(times(entry.attr), [told] * 3, name)
            self.assertEqual(kernel.getattr(entry.nodeid), entry.attr)
        self.assertEqual(times(kernel.walk("/d/early").attr), [(-2, 500000000)] * 3)
        self.assertEqual(times(kernel.walk("/d/late").attr), [(7, 8)] * 3)
        listed = {one.name.decode(): one.entry.attr for one in self.begun(server).listing(ROOT)}
        for name, told in TOLD.items():
            self.assertEqual(times(listed[name]), [told] * 3, name)

    @of_sockets
    def test_what_another_client_says_meanwhile(self):
        server = self.served()
        kernel, client = self.begun(server, "--shared"), self.client(server)
        node = kernel.walk("/e/l").nodeid
        client.setxattr("/e", LINKS + "3", b"5.000000006/l")
        self.assertEqual(changed(kernel.getattr(node)), (5, 6))
        client.setxattr("/e", LINKS + "3", b"7.000000008/l")
        self.assertEqual(changed(kernel.walk("/e/l").attr), (7, 8))
        client.setxattr("/e", LINKS + "3", b"9.000000000/l")
        listed = kernel.listing(kernel.walk("/e").nodeid)
        self.assertEqual(changed(listed[-1].entry.attr), (9, 0))

    def test_without_them_all_is_as_new_as_the_mount(self):
        before = tick()
        with Bridge(self.served().path) as kernel:
            for name in ("awk", "none", "file"):
                found = times(kernel.lookup(ROOT, name).attr)
                self.assertEqual(len(set(found)), 1)
                self.assertTrue(before <= found[0][0] <= time.time(), name)

    def test_values_of_another_form_are_none(self):
        server = self.served()
        client = self.client(server)
        for value in (b"", b"1.5/l", b"x", b"1.000000000", b"/l", b"1.0000000000/l", b"1/l",
                      b"+1.000000000/l", b" 1.000000000/l", b"1.000000000 /l", b"-.000000000/l",
                      "\u0661.000000000/l".encode(), b"9223372036854775808.000000000/l",
                      b"-9223372036854775809.000000000/l", b"12345678901234567890.000000000/l",
                      b"1.000000000/x//l", b"1.000000000/x///l", b"1.000000000/x\0/l\0",
                      b"1.000000000//l", b"1.000000000/l.000000000"):
            client.setxattr("/e", LINKS + "0", value)
            self.assertEqual(self.again(server, "/e/l"), [LONG_AGO], value)
        client.removexattr("/e", LINKS + "0")
        for number in ("48", "00", "01", "-1", "1x", "", "100"):
            client.setxattr("/e", LINKS + number, b"5.000000006/l")
        self.assertEqual(self.again(server, "/e/l"), [LONG_AGO])

    def test_the_rest_of_a_value_counts(self):
        server = self.served()
        client = self.client(server)
        for value, told in ((b"x/l//5.000000006/l//y/l", (5, 6)), (b"5.000000006/l/", (5, 6)),
                            (b"5.000000006//x//7.000000008/a/l/b", (7, 8)),
                            (b"-9223372036854775808.999999999/l", (-1 << 63, 999999999)),
                            (b"9223372036854775807.000000000/l", ((1 << 63) - 1, 0)),
                            (b"007.000000008/l", (7, 8)), (b"-0.000000001/l", (0, 1))):
            client.setxattr("/e", LINKS + "47", value)
            self.assertEqual(self.again(server, "/e/l"), [told], value)

    def test_programs_neither_see_nor_set_them(self):
        kernel = self.begun(self.served())
        self.assertEqual(kernel.listxattr(ROOT), [b"user.a"])
        for name in ("0", "5"):
            self.refused(errno.EPERM, kernel.setxattr, ROOT, LINKS + name, b"x")
            self.refused(errno.ENODATA, kernel.getxattr, ROOT, LINKS + name)
            self.refused(errno.ENODATA, kernel.removexattr, ROOT, LINKS + name)

    def test_what_it_costs(self):
        """Names and values once for a directory with links; nothing for other objects."""
        server = self.served()

        def trips(*names):
            bridge = Bridge(server.path, "--times")
            for name in names:
                bridge.kernel.lookup(ROOT, name)
            return bridge.trips()

        self.assertEqual(trips("file", "d", "e", "file"), trips() + 4)
        self.assertEqual(trips("awk", "sh", "none", "nawk"), trips() + 4 + 2)


class Keeps(Case):
    def setUp(self):
        super().setUp()
        self.server = self.served()
        self.other = self.client(self.server)
        self.kernel = self.begun(self.server)

    def folder(self, path):
        return ROOT if path == "/" else self.kernel.walk(path).nodeid

    def made(self, path, mtime):
        """A new link with a time."""
        folder, _, name = path.rpartition("/")
        node = self.kernel.symlink(self.folder(folder or "/"), name, "x").nodeid
        self.kernel.setattr(node, SET_MTIME, mtime=mtime)
        return node

    def test_a_link_that_is_made(self):
        before = tick()
        made = changed(self.kernel.symlink(self.folder("/e"), "new", "x").attr)
        self.assertTrue(before <= made[0] <= time.time())
        self.assertEqual(self.values(self.other, "/e"), {0: b"%d.%09d/new" % made})
        self.assertEqual(self.again(self.server, "/e/new", "/e/l"), [made, LONG_AGO])

    def test_a_time_that_is_set(self):
        node = self.kernel.walk("/e/l").nodeid
        for mtime, value in (((22, 2), b"22.000000002/l"), ((-2, 500000000), b"-2.500000000/l"),
                             (LONG_AGO, b"315532800.000000000/l"), ((0, 0), b"0.000000000/l")):
            found = self.kernel.setattr(node, SET_ATIME | SET_MTIME, atime=(11, 1), mtime=mtime)
            self.assertEqual(times(found)[:2], [(11, 1), mtime])
            self.assertEqual(self.values(self.other, "/e"), {0: value})
            self.assertEqual(self.again(self.server, "/e/l"), [mtime])

    def test_what_sets_no_time_of_change(self):
        """It leaves what is known as it is, and says nothing where nothing is."""
        told = {1: b"-2.500000000/early", 47: b"7.000000008/late"}
        for path, value in (("/e", {}), ("/d", told)):
            for name in ("l", "early", "late"):
                node = self.kernel.lookup(self.folder(path), name).nodeid
                if node:
                    self.kernel.setattr(node, SET_UID, uid=7)
                    self.kernel.setattr(node, SET_ATIME, atime=(1, 0))
            self.assertEqual(self.values(self.other, path), value)
        self.assertEqual(self.other.listxattr("/e"), [])

    def test_one_time_is_said_once(self):
        self.made("/e/a", (5, 6))
        self.made("/e/c", (4, 0))
        self.made("/e/b", (5, 6))
        value = self.values(self.other, "/e")
        self.assertEqual(list(value), [0])
        self.assertEqual(groups(value[0]), {"4.000000000": {"c"}, "5.000000006": {"a", "b"}})

    def test_a_rename_takes_it_along(self):
        self.made("/e/one", (5, 6))
        self.kernel.rename(self.folder("/e"), "one", self.folder("/e"), "two")
        self.assertEqual(self.values(self.other, "/e"), {0: b"5.000000006/two"})
        self.kernel.rename(self.folder("/e"), "two", self.folder("/d"), "three")
        self.assertEqual(self.values(self.other, "/e"), {})
        self.kernel.rename(ROOT, "d", ROOT, "moved")
        for name in ("sh", "none"):
            self.kernel.lookup(ROOT, name)
        self.kernel.rename(ROOT, "sh", self.folder("/e"), "sh")
        self.kernel.rename(ROOT, "none", self.folder("/e"), "none")
        self.assertEqual(self.values(self.other, "/e"), {0: b"1600000000.123456789/sh"})
        self.assertEqual(self.again(self.server, "/moved/three", "/moved/early", "/moved/late",
                                    "/e/sh", "/e/none", "/awk"),
                         [(5, 6), (-2, 500000000), (7, 8), (1600000000, 123456789), LONG_AGO,
                          (1577836800, 0)])

    def test_a_rename_over_another_link(self):
        self.made("/e/one", (5, 6))
        for name in ("early", "late"):
            self.kernel.walk("/d/" + name)
        self.kernel.rename(self.folder("/e"), "one", self.folder("/d"), "late")
        self.kernel.rename(self.folder("/e"), "l", self.folder("/d"), "early")
        self.assertEqual(self.values(self.other, "/e"), {})
        self.assertEqual([groups(value) for value in self.values(self.other, "/d").values()],
                         [{"5.000000006": {"late"}}])
        self.assertEqual(self.again(self.server, "/d/late", "/d/early"), [(5, 6), LONG_AGO])

    def test_an_exchange(self):
        for name in ("early", "late", "f"):
            self.kernel.walk("/d/" + name)
        self.kernel.walk("/sh")
        self.kernel.rename(ROOT, "sh", self.folder("/d"), "early", EXCHANGE)
        self.kernel.rename(self.folder("/d"), "f", self.folder("/d"), "late", EXCHANGE)
        self.assertEqual(self.again(self.server, "/sh", "/d/early", "/d/f", "/d/late"),
                         [(-2, 500000000), TOLD["sh"], (7, 8), self.changed("/d/late")])
        self.assertNotIn(b"late", b"".join(self.values(self.other, "/d").values()))

    def changed(self, path):
        return changed(self.kernel.walk(path).attr)

    def test_a_name_that_is_another_link_later_has_another_time(self):
        """However the one before went."""
        d = self.folder("/d")
        for name in ("early", "late", "f", "g"):
            self.kernel.lookup(d, name)
        self.kernel.unlink(d, "late")
        self.assertEqual(self.values(self.other, "/d"), {1: b"-2.500000000/early"})
        self.kernel.rename(d, "f", d, "early")
        self.assertEqual(self.values(self.other, "/d"), {})
        self.kernel.unlink(d, "early")
        self.assertEqual(self.other.listxattr("/d"), [META])
        for name in ("early", "late"):
            made = changed(self.kernel.symlink(d, name, "y").attr)
            self.assertEqual(self.again(self.server, "/d/" + name), [made])
            self.assertGreater(made[0], LONG_AGO[0])
        self.assertEqual(changed(self.kernel.symlink(ROOT, "gone", "y").attr),
                         self.again(self.server, "/gone")[0])

    def test_further_names_of_a_link(self):
        node = self.made("/e/one", (5, 6))
        self.kernel.link(node, self.folder("/d"), "two")
        self.assertEqual(self.again(self.server, "/e/one", "/d/two"), [(5, 6), (5, 6)])
        self.kernel.setattr(node, SET_MTIME, mtime=(7, 0))
        self.kernel.link(self.kernel.walk("/e/l").nodeid, self.folder("/d"), "three")
        self.assertEqual(self.again(self.server, "/e/one", "/d/two", "/e/l", "/d/three"),
                         [(7, 0), (7, 0), LONG_AGO, LONG_AGO])
        self.kernel.unlink(self.folder("/e"), "one")
        self.assertEqual(self.again(self.server, "/d/two"), [(7, 0)])

    def test_what_the_kernel_forgets_is_found_again(self):
        node = self.made("/e/one", (5, 6))
        self.kernel.forget(node, 1)
        self.kernel.forget(self.kernel.walk("/sh").nodeid, 1)
        self.assertEqual((self.changed("/e/one"), self.changed("/sh")), ((5, 6), TOLD["sh"]))

    def test_many(self):
        """More than one attribute has room for; what goes makes room for what comes."""
        e, wanted = self.folder("/e"), {}

        def make(name, mtime):
            node = self.kernel.symlink(e, name, "x").nodeid
            self.kernel.setattr(node, SET_MTIME, mtime=mtime)
            wanted["/e/" + name] = mtime

        names = [f"{number:03}" + "\u00e9" * 10 for number in range(90)]
        for number, name in enumerate(names):
            make(name, (1000 + number, number))
        # Of each link: 14 bytes of a time, a slash, 23 of its name, and two slashes before all but
        # the first of a value, which so has room for 25.
        self.assertEqual(list(self.values(self.other, "/e")), [0, 1, 2, 3])
        for name in names[::3]:
            self.kernel.unlink(e, name)
            del wanted["/e/" + name]
        for number in range(30):
            make(f"{number:023}", (5000 + number, 0))
        found = self.values(self.other, "/e")
        self.assertEqual(list(found), [0, 1, 2, 3])
        self.assertLessEqual(max(map(len, found.values())), 1024)
        self.assertEqual(self.again(self.server, *wanted), list(wanted.values()))

    def test_times_are_kept_by_options_alone(self):
        before = self.values(self.other, "/")
        with Bridge(self.server.path) as kernel:
            kernel.setattr(kernel.walk("/sh").nodeid, SET_MTIME, mtime=(5, 6))
            kernel.symlink(kernel.walk("/e").nodeid, "new", "x")
            kernel.unlink(ROOT, "awk")
            self.assertEqual(changed(kernel.walk("/sh").attr), (5, 6))
        self.assertEqual((self.values(self.other, "/"), self.other.listxattr("/e")), (before, []))

    @of_sockets
    def test_changes_of_another_client_stay(self):
        kernel = self.begun(self.server, "--shared")
        e, d = kernel.walk("/e").nodeid, kernel.walk("/d").nodeid
        node = kernel.symlink(e, "one", "x").nodeid
        kernel.setattr(node, SET_MTIME, mtime=(5, 6))
        self.other.setxattr("/e", LINKS + "0", b"5.000000006/one//7.000000000/l")
        kernel.rename(e, "one", e, "two")
        self.assertEqual(groups(self.values(self.other, "/e")[0]),
                         {"5.000000006": {"two"}, "7.000000000": {"l"}})
        kernel.rename(e, "two", d, "late")
        kernel.setattr(kernel.walk("/e/l").nodeid, SET_ATIME, atime=(1, 0))
        self.assertEqual(times(kernel.walk("/e/l").attr)[:2], [(1, 0), (7, 0)])
        self.assertEqual(self.values(self.other, "/e"), {0: b"7.000000000/l"})
        self.assertEqual(self.again(self.server, "/d/late", "/d/early"), [(5, 6), (-2, 500000000)])


class Room(Case):
    """What has no room isn't kept, which is no fault."""

    def full(self, number):
        """A value of 1,024 bytes: 11 of a time, and names with a slash before each."""
        names = [f"{number:02}{place}" + "n" * 252 for place in range(3)] + ["m" * 244]
        value = "1.000000000/" + "/".join(names)
        self.assertEqual(len(value), 1024)
        return value.encode()

    def test_all_attributes_are_full(self):
        server = self.served()
        client = self.client(server)
        before = {number: self.full(number) for number in range(48)}
        for number, value in before.items():
            client.setxattr("/e", f"{LINKS}{number}", value)
        with Bridge(server.path, "--times") as kernel:
            e = kernel.walk("/e").nodeid
            made = kernel.symlink(e, "new", "x")
            found = kernel.setattr(made.nodeid, SET_MTIME, mtime=(5, 6))
            self.assertEqual(changed(found), (5, 6))
            kernel.rename(e, "new", e, "newer")
            self.assertEqual(changed(kernel.walk("/e/newer").attr), (5, 6))
        self.assertEqual(self.values(client, "/e"), before)
        self.assertEqual(self.again(server, "/e/newer"), [LONG_AGO])
        with Bridge(server.path, "--times") as kernel:
            e = kernel.walk("/e").nodeid
            kernel.symlink(e, "020" + "n" * 252, "x")
            kernel.setattr(kernel.walk("/e/020" + "n" * 252).nodeid, SET_MTIME, mtime=(1, 0))
        self.assertEqual(self.again(server, "/e/020" + "n" * 252), [(1, 0)])

    def test_other_attributes_go_first(self):
        """Of 64, one is the directory's own times'."""
        server = self.served()
        client = self.client(server)
        for number in range(61):
            client.setxattr("/e", f"user.{number}", b"")
        with Bridge(server.path, "--times") as kernel:
            e = kernel.walk("/e").nodeid
            kernel.setattr(kernel.walk("/e/l").nodeid, SET_MTIME, mtime=(5, 6))
            self.assertEqual(self.values(client, "/e"), {0: b"5.000000006/l"})
            kernel.setxattr(e, "user.61", b"")
            for number in range(4):  # a value has room for three of them, with their times
                node = kernel.symlink(e, f"{number}" + "n" * 254, "x").nodeid
                kernel.setattr(node, SET_MTIME, mtime=(number, 0))
        found = client.listxattr("/e")
        self.assertEqual((len(found), found.count(LINKS + "0"), found.count(META)), (64, 1, 1))
        self.assertEqual(self.again(server, "/e/l", "/e/0" + "n" * 254, "/e/3" + "n" * 254),
                         [(5, 6), (0, 0), LONG_AGO])

    def test_a_value_of_another_form_makes_room(self):
        server = self.served()
        client = self.client(server)
        for number in range(63):
            client.setxattr("/e", f"{LINKS}0" if number == 0 else f"user.{number}", b"x" * 9)
        with Bridge(server.path, "--times") as kernel:
            kernel.setattr(kernel.walk("/e/l").nodeid, SET_MTIME, mtime=(5, 6))
        self.assertEqual(self.values(client, "/e"), {0: b"5.000000006/l"})

    def test_a_name_that_stands_twice_goes_from_both(self):
        server = self.served()
        client = self.client(server)
        client.setxattr("/e", LINKS + "0", b"5.000000006/l/x")
        client.setxattr("/e", LINKS + "1", b"7.000000008/l")
        with Bridge(server.path, "--times") as kernel:
            kernel.walk("/e/l")
            kernel.unlink(kernel.walk("/e").nodeid, "l")
        self.assertEqual(self.values(client, "/e"), {0: b"5.000000006/x"})

    def test_names_that_no_manifest_can_say(self):
        """They would keep their directory from being saved."""
        server = self.served()
        with Bridge(server.path, "--times") as kernel:
            e = kernel.walk("/e").nodeid
            kernel.symlink(e, b"\xff", "x")
            node = kernel.symlink(e, b"said", "x").nodeid
            kernel.setattr(node, SET_MTIME, mtime=(5, 6))
        self.assertEqual(self.values(self.client(server), "/e"), {0: b"5.000000006/said"})

    def test_a_mount_without_an_upper(self):
        kernel = self.begun(self.served("upper = false\n" + TREE))
        node = kernel.walk("/sh").nodeid
        kernel.setattr(node, SET_MTIME, mtime=(5, 6))
        self.assertEqual(changed(kernel.walk("/sh").attr), (5, 6))


class Lies(unittest.TestCase):
    """Of a server that may say anything."""

    def shown(self, value, *keys):
        with Played() as server, Bridge(server.path, "--times") as kernel:
            def answer(session, body):
                server.lies[GETATTR] = answer
                own = len(value).to_bytes(2, "big") + value
                session.link.sendall(refused(61) if body.endswith(b"meta") else made(own))
                return True
            server.lies.update({STAT: made(attr(LINK)), ATTRS: made(texts(*keys)), GETATTR: answer})
            return changed(kernel.lookup(ROOT, "l").attr)

    def test_values_and_names(self):
        key = (LINKS + "0").encode()
        self.assertEqual(self.shown(b"5.000000006/l", key), (5, 6))
        self.assertEqual(self.shown(b"5.000000006/l", *[key] * 100), (5, 6))
        self.assertEqual(self.shown(b"5.000000006/l" + b"/" * 1012, key), LONG_AGO)
        self.assertEqual(self.shown(b"5.000000006/l" + b"/x" * 20000, key), LONG_AGO)

    def test_numbers(self):
        """Of the attributes, which an export reads within the same bounds."""
        for number in ("", "00", "01", "48", "100", "-1", "x"):
            key = (LINKS + number).encode()
            self.assertEqual(self.shown(b"5.000000006/l", key), LONG_AGO, number)
        self.assertEqual(self.shown(b"5.000000006/l", (LINKS + "47").encode()), (5, 6))


class Saved(EngineCase):
    def setUp(self):
        super().setUp()
        self.manifest(TREE)

    def test_by_a_new_mount_and_by_an_export(self):
        bridge = self.bridge("--save", str(self.saved))
        kernel = bridge.kernel
        self.assertEqual(times(kernel.walk("/awk").attr), [(1577836800, 0)] * 3)
        kernel.setattr(kernel.walk("/sh").nodeid, SET_MTIME, mtime=(5, 6))
        e = kernel.walk("/e").nodeid
        made = changed(kernel.symlink(e, "made", "x").attr)
        kernel.walk("/d/early")
        kernel.rename(kernel.walk("/d").nodeid, "early", e, "moved")
        bridge.end()
        kernel = self.bridge("--upper", str(self.saved)).kernel
        wanted = {"sh": (5, 6), "e/made": made, "e/moved": (-2, 500000000), "d/late": (7, 8),
                  "awk": (1577836800, 0), "e/l": LONG_AGO}
        self.assertEqual({path: changed(kernel.walk(path).attr) for path in wanted}, wanted)
        layer = os.path.join(self.folder, "layer.tar")
        self.assertEqual(export([str(self.folder / "m.toml"), "--manifest", str(self.saved),
                                 "--layer", layer]), 0)
        with tarfile.open(layer) as tar:
            found = {one.name: one.pax_headers.get("mtime", str(one.mtime)) for one in tar
                     if one.issym()}
        self.assertEqual((found["e/moved"], found["sh"]), ("-1.5", "5.000000006"))
        self.assertEqual(found["e/made"].rstrip("0").rstrip("."),
                         "{}.{:09}".format(*made).rstrip("0").rstrip("."))


if __name__ == "__main__":
    unittest.main()
