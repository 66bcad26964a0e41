"""Rows whose lines are asked with each of their requests for memory refused, in turn."""
import itertools
import subprocess
import tempfile
from collections import Counter
from pathlib import Path

from refusing import Refusals, Wrong, expect
from rows import Line

DESCRIPTORS, WATCHES = range(4), range(1, 6)
ANSWERED, SPARED = "answered ENOMEM", "answered all the same"


class Ended(Exception):
    """No answer came: the program or the session ended."""


class Stage:
    """Lines that are asked of a program in which requests for memory can be refused. `begin` waits
    until it can be asked, and `answer` gives the lines that one line prints."""

    def __init__(self, program, library, manifest, words, stdin=subprocess.DEVNULL):
        self.refusals = Refusals(library)
        self.folder = tempfile.TemporaryDirectory(dir=library.parent)
        (Path(self.folder.name) / "manifest.toml").write_text(manifest)
        self.run = subprocess.Popen(
            [program, *words], cwd=self.folder.name, env=self.refusals.environment, bufsize=0,
            stdin=stdin, stdout=subprocess.PIPE, stderr=subprocess.PIPE)

    def __enter__(self):
        try:
            self.begin()
        except BaseException:
            self.close()
            raise
        return self

    def __exit__(self, *_):
        self.close()

    def close(self):
        if self.run.poll() is None:
            self.run.kill()
        self.run.communicate()
        self.refusals.close()
        self.folder.cleanup()

    def plays(self, lines):
        for line in lines:
            expect(self.answer(line), line.wanted, line.text)

    def refuse(self, line, nth):
        """What a line prints while its nth request is refused; None where nothing answers."""
        self.refusals.begin(nth)
        try:
            answer = self.answer(line)
        except Ended:
            answer = None
        self.settle()
        self.refusals.end()
        return answer

    def settle(self):
        """Waits until nothing goes on behind an answer."""

    def is_full(self):
        """No place of the history is left for a call."""
        self.plays([Line("0 stat /", ["0 not taken ENOSPC"])])

    def looks(self, texts):
        """What these lines print, each with its own text."""
        return [(text, self.answer(Line(text, []))) for text in texts]


def texts_of_clients(clients):
    """Lines that show the queue of each client, its descriptors and its watches, and change them.
    No row has more of them."""
    for client in clients:
        yield f"{client} notices 65"
    for client, number in itertools.product(clients, DESCRIPTORS):
        yield from (f"{client} fstat {number}", f"{client} seek {number} 0 cur",
                    f"{client} read {number} 65536", f"{client} list {number} 256")
    for client, number in itertools.product(clients, WATCHES):
        yield f"{client} disarm {number}"


def no_memory(line):
    """What a line prints where memory ran out."""
    return ["not attached ENOMEM" if line.client is None else f"{line.client} not taken ENOMEM"]


class Trial:
    """A row and a program. Those that follow say how it is asked: `stage` begins it on the row's
    layers with a history of so many places; `look` shows all that a line may have changed, and
    `look_without` shows it where the line is left out; `ended` judges what ended; `copies` says
    of a line whether it may copy a file and leave the next steps to be made."""

    def __init__(self, program, library, row):
        self.program, self.library, self.row = program, library, row

    def whole(self):
        """The row as it is, in a history that it fills."""
        with self.stage(self.row.places) as stage:
            stage.plays(self.row.lines)
            stage.is_full()
            stage.end()

    def refused_look(self, at, nth, wanted):
        """After a line that had no memory all is as without it."""
        line = self.row.lines[at]
        with self.stage() as stage:
            stage.plays(self.row.lines[:at])
            expect(stage.refuse(line, nth), no_memory(line), line.text)
            self.is_as(self.look(stage, at), wanted, at)

    def is_as(self, seen, wanted, _at):
        for (text, got), (_, should) in zip(seen, wanted):
            expect(got, should, f"afterwards, {text}")
        expect(len(seen), len(wanted), "how much is looked at")

    def can_do_without(self, line):
        """Whether a call asks for memory that it can do without: to keep a look-up, or what it
        copies from step to step, or to have room for a whole listing at once."""
        return self.row.keeps or line.verb == "list" or self.copies(line)

    def rest_again(self, at):
        """The row from this line on, which is asked once more."""
        return self.row.lines[at:]

    def refused(self, at, nth):
        """How a line ends whose nth request is refused; None where it makes fewer. The same line
        again and the rest of the row are answered as they are without a refusal, and the history is
        as full as it is then."""
        line = self.row.lines[at]
        with self.stage(self.row.places) as stage:
            stage.plays(self.row.lines[:at])
            got = stage.refuse(line, nth)
            if not stage.refusals.refused:
                expect(got, line.wanted, line.text)
                return None
            if got is None:
                return self.ended(stage, at, nth)
            if got == no_memory(line):
                stage.plays(self.rest_again(at))
            else:
                expect(got, line.wanted, line.text)
                expect(self.can_do_without(line), True, f"{line.text} can do without memory")
                stage.plays(self.row.lines[at + 1:])
            stage.is_full()
            stage.end()
            return ANSWERED if got == no_memory(line) else SPARED

    def line(self, at):
        """How often the requests of one line, each refused in turn, ended how."""
        ways = Counter()
        wanted = self.look_without(at)
        for nth in itertools.count(1):
            try:
                outcome = self.refused(at, nth)
                if outcome is None:
                    return ways
                if outcome == ANSWERED:
                    self.refused_look(at, nth, wanted)
            except (Wrong, Ended) as fault:
                raise Wrong(f"{self.row.lines[at].text}, request {nth}: {fault}") from None
            ways[outcome] += 1
