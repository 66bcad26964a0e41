"""Worked rows: a manifest, a script, and what each line of it answers."""
import re
from pathlib import Path
from typing import List, NamedTuple

DATA = Path(__file__).resolve().parents[2] / "crates" / "side_by_side" / "data"
OBJECT = re.compile(r"[dflc] [0-7]{4} \d+ \d+ \d+ \d+ ")


class Line(NamedTuple):
    """A line of a script."""

    text: str
    wanted: List[str]

    @property
    def words(self):
        return self.text.split(" ")

    @property
    def client(self):
        """The client of a call, or None."""
        return int(self.words[0]) if self.words[0].isdigit() else None

    @property
    def verb(self):
        return self.words[1 if self.client is not None else 0]

    @property
    def is_asked(self):
        """Whether it is a call or an attach, and none of the script's own commands."""
        return self.client is not None or self.verb == "attach"

    @property
    def is_entry(self):
        """Whether its answer has a place in the history."""
        return self.is_asked and bool(self.wanted) and not self.wanted[0].endswith(" more")


class Row(NamedTuple):
    """A row. `keeps` says that so many layers lie below the upper that look-ups are kept."""

    name: str
    manifest: str
    lines: List[Line]
    keeps: bool = False

    @property
    def clients(self):
        return sum(line.verb == "attach" for line in self.lines)

    @property
    def places(self):
        """How many places its history needs; each client keeps one for its detach."""
        return sum(line.is_entry for line in self.lines) + self.clients

    @property
    def layers(self):
        """The numbers of its layers, each a table of its manifest's one array. Without an upper
        they begin with 1."""
        body = self.manifest.partition("layer = [")[2]
        depth = count = 0
        for letter in body:
            count += letter == "{" and depth == 0
            depth += {"{": 1, "}": -1}.get(letter, 0)
        first = int("upper = false" in self.manifest)
        return range(first, first + (count or self.manifest.count("[[layer]]")))

    def text_of(self, places=None):
        """The manifest, with a history of so many places."""
        return self.manifest if places is None else f"history = {places}\n{self.manifest}"


def lines_of(script, wanted):
    """Each line of a script with the lines that it prints."""
    left = list(wanted)
    lines = []
    for text in script:
        line = Line(text, [])
        if line.verb in ("layer", "merge"):
            while left and OBJECT.match(left[0]):
                line.wanted.append(left.pop(0))
        elif line.verb != "start":
            line.wanted.append(left.pop(0))
        lines.append(line)
    if left:
        raise ValueError(f"{left[0]!r} is wanted of no line")
    return lines


def row_of(file, name, keeps=False):
    """The row of this name in a file of rows."""
    parts, part = {}, None
    text = (DATA / file).read_text().partition(f"== {name}\n")[2].partition("\n== ")[0]
    for line in text.split("\n"):
        if line.startswith("-- "):
            part = parts.setdefault(line[3:], [])
        elif part is not None and line:
            part.append(line)
    if "script" not in parts:
        raise SystemExit(f"{file} has no row `{name}`")
    lines = lines_of(parts["script"], parts["wanted"])
    return Row(name, "\n".join(parts["manifest"]) + "\n", lines, keeps)


def job_of(row, at):
    """Of the job that makes the step at this line: its call, and the line that answers it."""
    client = row.lines[at].client
    begun = max(place for place in range(at) if row.lines[place].client == client
                and row.lines[place].verb == "start")
    answered = next(place for place in range(begun + 1, len(row.lines))
                    if row.lines[place].client == client and row.lines[place].is_entry)
    return row.lines[begun].text.replace(" start ", " ", 1), answered


def made_at_once(row):
    """The lines of a row whose calls in steps are made at once where they are answered, without
    what a script alone can ask."""
    lines = []
    for at, line in enumerate(row.lines):
        if line.verb == "step" and line.is_entry:
            lines.append(Line(job_of(row, at)[0], line.wanted))
        elif line.is_asked and line.verb not in ("start", "step"):
            lines.append(line)
    return lines


def without_steps(row, at):
    """What is left of a row behind a step that ended its job: the job's other steps are left out,
    and its call is made at once where it was answered. Until then it has no temp."""
    call, answered = job_of(row, at)
    lines = []
    for place in range(at, len(row.lines)):
        line = row.lines[place]
        if place == answered:
            lines.append(Line(call, line.wanted))
        elif place < answered and line.verb == "work":
            lines.append(Line("work", [f"work {int(line.wanted[0].split(' ')[1]) - 1}"]))
        elif place > answered or line.client != row.lines[at].client:
            lines.append(line)
    return lines
