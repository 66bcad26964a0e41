"""Tests of command lines, and of the texts and statuses of faults."""
import subprocess

from servers import MANIFEST, SECONDS, expect, runs


def command_lines(program):
    """What is asked for is done, or refused as another command line is."""
    with runs(program) as (_, run):
        tree = "d 0755 0 0 0 1 /\nf 0644 0 0 0 1 /f\n"
        expect(run("show", "manifest.toml"), (0, tree, ""), "show")
        size = str(len(MANIFEST.encode()))
        expect(run("play", "manifest.toml", "--manifest-limit", size), (0, "", ""), "play")
        expect(run("--version"), (0, "overlayd 0.4.0\n", ""), "the version")
        for words in (["--help"], ["show", "--help"], ["play", "--help"]):
            status, out, told = run(*words)
            expect((status, bool(out), told), (0, True, ""), " ".join(words))
        for words in ([], ["show"], ["show", "--version"], ["mount", "manifest.toml"],
                      ["show", "manifest.toml", "more"], ["play", "manifest.toml", "--workers=2"]):
            status, out, told = run(*words)
            expect((status, out, bool(told)), (2, "", True), " ".join(words))
        for more in ("--manifest-limit=0", "--manifest-limit=1099511627777"):
            status, out, told = run("serve", "manifest.toml", "s", more)
            expect((status, out, bool(told)), (2, "", True), more)
        told = "overlayd: a word of the command line is not UTF-8\n"
        expect(run("show", b"\xff"), (2, "", told), "no text")


def each_option_of_serve(program):
    """All options at once, but for the two that exclude each other, in any order."""
    words = ["serve", "-v", "--workers", "64", "manifest.toml", "s", "--sessions=1000000",
             "--no-history", "--idle", "86400", "--unlink", "--until-eof", "--save", "upper.toml",
             "--refuse", "--status=status",
             "--manifest-limit=1099511627776"]
    with runs(program) as (folder, run):
        status, out, told = run(*words)
        expect((status, out), (0, ""), "status, and standard output")
        expect(told.startswith("overlayd: listening on s, workers: 64\n"), True, told)
        saved = (folder / "upper.toml").read_text()
        (folder / "again.toml").write_text(saved + "[[layer]]\n")
        expect(run("show", "again.toml"), (0, "d 0755 0 0 0 1 /\n", ""), "what was saved")
        plain = [word for word in words if word != "--no-history"]
        (folder / "upper.toml").unlink()
        expect(run(*plain, "--history=2")[0], 0, "a history of two places")
        told = "overlayd: --history does not go with --no-history\n"
        expect(run(*words, "--history=2"), (2, "", told), "a history of none")


def faults_by_their_texts(program):
    """A script's bad line by its number, and a standard output that takes nothing."""
    with runs(program) as (folder, run):
        (folder / "script").write_text("attach\n\nnothing\n")
        with open(folder / "script", "rb") as script:
            ran = subprocess.run([program, "play", "manifest.toml"], cwd=folder, stdin=script,
                                 capture_output=True, timeout=SECONDS)
        found = (ran.returncode, ran.stdout, ran.stderr)
        expect(found, (2, b"client 0\n", b"overlayd: line 3: bad command\n"), "a bad command")
        with open("/dev/full", "wb") as full:
            ran = subprocess.run([program, "show", "manifest.toml"], cwd=folder, stdout=full,
                                 stderr=subprocess.PIPE, timeout=SECONDS)
        expect((ran.returncode, ran.stderr), (1, b"overlayd: stream\n"), "no room for output")


TESTS = [command_lines, each_option_of_serve, faults_by_their_texts]
