"""`overlayd play` with requests for memory refused."""
import contextlib
import os
import select
import subprocess
import time

from refusing import SECONDS, Wrong, expect
from rows import Line, job_of, without_steps
from trials import Ended, Stage, Trial, texts_of_clients

NO_MEMORY = "overlayd: out of memory\n"
ENDED = "ended the program"


class Play(Stage):
    """A script that is played line by line."""

    def __init__(self, program, library, manifest):
        super().__init__(program, library, manifest, ["play", "manifest.toml"], subprocess.PIPE)
        self.begun = b""

    def begin(self):
        self.plays([Line("work", ["work 0"])])

    def printed(self):
        """The next line on standard output."""
        until = time.monotonic() + SECONDS
        while b"\n" not in self.begun:
            left = max(0.0, until - time.monotonic())
            if not select.select([self.run.stdout], [], [], left)[0]:
                raise Wrong("no answer")
            piece = os.read(self.run.stdout.fileno(), 65536)
            if not piece:
                raise Ended("the program ended")
            self.begun += piece
        line, self.begun = self.begun.split(b"\n", 1)
        return line.decode()

    def answer(self, line):
        """Where a line doesn't print one line, `work` is asked behind it, whose own line says that
        it is over."""
        several = line.verb in ("#", "start", "layer", "merge")
        with contextlib.suppress(BrokenPipeError):
            self.run.stdin.write(f"{line.text}\n{'work' + chr(10) if several else ''}".encode())
        if not several:
            return [self.printed()]
        lines = []
        while not lines or not lines[-1].startswith("work "):
            lines.append(self.printed())
        return lines[:-1]

    def end(self, status=0, told=""):
        """Ends the script; the program has printed and told no more than this."""
        self.run.stdin.close()
        self.run.stdin = None
        out, errors = self.run.communicate(timeout=SECONDS)
        expect((self.run.returncode, self.begun + out, errors.decode()), (status, b"", told), "end")


class PlayTrial(Trial):
    """A row that is played."""

    def stage(self, places=None):
        return Play(self.program, self.library, self.row.text_of(places))

    def copies(self, line):
        return line.verb == "step" and not line.is_entry

    def ended(self, stage, _at, _nth):
        stage.end(status=3, told=NO_MEMORY)
        return ENDED

    def rest_again(self, at):
        if self.row.lines[at].verb == "step":
            return without_steps(self.row, at)
        return super().rest_again(at)

    def busy(self, at):
        """The clients that have begun a call before this line, which is no step of it."""
        busy = []
        for line in self.row.lines[:at]:
            if line.verb == "start":
                busy.append(line.client)
            elif line.verb == "step" and line.is_entry:
                busy.remove(line.client)
        if self.row.lines[at].verb == "step":
            busy.remove(self.row.lines[at].client)
        return busy

    def look(self, stage, at):
        texts = ["merge", *(f"layer {layer}" for layer in self.row.layers), "work"]
        for client in self.busy(at):
            texts += [f"{client} drop", "work"]
        clients = range(sum(line.verb == "attach" for line in self.row.lines[:at]))
        seen = stage.looks([*texts, *texts_of_clients(clients)])
        files = [line.split(" ")[6] for line in seen[0][1] if line[0] == "f"] if clients else []
        return [*seen, *(("bytes of " + path, bytes_at(stage, path)) for path in files)]

    def look_without(self, at):
        """A step is left out by giving its call up."""
        line = self.row.lines[at]
        with self.stage() as stage:
            stage.plays(self.row.lines[:at])
            if line.verb == "step":
                stage.plays([Line(f"{line.client} drop", [f"{line.client} dropped"])])
            return self.look(stage, at)

    def is_as(self, seen, wanted, at):
        """Parents of the call may have come up, and stay."""
        line = self.row.lines[at]
        call = job_of(self.row, at)[0] if line.verb == "step" else line.text
        (_, merged), (name, upper) = seen[0], seen[1]
        upper = [one for one in upper if one in wanted[1][1] or not is_placed(one, call, merged)]
        super().is_as([seen[0], (name, upper), *seen[2:]], wanted, at)


def bytes_at(stage, path):
    """What client 0 reads of a file."""
    (opened,) = stage.answer(Line(f"0 open r {path}", []))
    return stage.answer(Line(f"0 read {opened.split(' ')[-1]} 65536", []))


def is_placed(line, call, merged):
    """Whether a line of the upper is a parent of what a call names, as the mount shows it."""
    words = line.split(" ")
    below = words[6].rstrip("/") + "/"
    return (words[0] == "d" and " ".join(words[:7]) in merged
            and any(word.startswith(below) for word in call.split(" ")))
