#!/usr/bin/env python3
"""Watches a directory of a mount by one client, while another one changes what is in it.

usage: watch_and_change.py SOCKET [DIRECTORY]

SOCKET is that of a running `overlayd serve MANIFEST SOCKET`; DIRECTORY is `/` if left out. It
makes a file, moves it, and removes it again.
"""

import os
import sys

from overlayd import Client, Mask


def told(client):
    """Prints what the client's watches heard since it was asked last."""
    for notice in client.notices():
        cookie = f", of rename {notice.cookie}" if notice.cookie else ""
        print(f"watch {notice.wd} heard {notice.mask} of {notice.name}{cookie}")


def change(client, draft, final):
    """Makes a file, writes to it, moves it, and gets one call refused."""
    with client.open(draft, os.O_WRONLY | os.O_CREAT | os.O_EXCL, 0o600) as file:
        file.write(b"a first line\n")
    client.rename(draft, final)
    print(f"{final} has {client.stat(final).st_size} bytes")
    try:
        client.mkdir(final)
    except FileExistsError as refused:
        print(f"refused: {refused.strerror}")


def tidy(client, final):
    """Sends three calls in one write; the second finds nothing any more."""
    with client.pipeline() as batch:
        first, second, third = batch.unlink(final), batch.unlink(final), batch.stat("/")
    print(f"removed: {first.exception() is None}, again: {second.exception() is None}")
    rising = first.place < second.place < third.place
    print(f"their places in the history rise: {rising}")


def main():
    """Runs both clients, one after the other's call."""
    path = sys.argv[1]
    directory = sys.argv[2].rstrip("/") if len(sys.argv) > 2 else ""
    with Client(path) as watcher, Client(path) as changer:
        watcher.arm(0, directory or "/", Mask.CREATE | Mask.MODIFY | Mask.MOVE | Mask.DELETE)
        change(changer, f"{directory}/draft", f"{directory}/final")
        told(watcher)
        tidy(changer, f"{directory}/final")
        told(watcher)


if __name__ == "__main__":
    if len(sys.argv) not in (2, 3):
        sys.exit(__doc__)
    main()
