"""Files that are larger than the memory that a program may have."""
import resource
import subprocess
import tempfile
from pathlib import Path

from refusing import SECONDS, expect

# What a program may have in all, as by `ulimit -v`.
MEMORY = 1 << 30
MOST = 1 << 40
# A file of more bytes than that, which are zeros until they are written.
HOLE = 2 * MEMORY
SCRIPT = f"""attach
0 open bc /f
0 write 0 ab
0 truncate 0 {MOST}
0 truncate 0 {MOST + 1}
0 fstat 0
0 seek 0 {MOST - 1} set
0 write 0 x
0 seek 0 0 set
0 read 0 9
0 truncate 0 {HOLE}
0 fstat 0
0 seek 0 -2 end
0 write 0 yz
0 seek 0 -3 end
0 read 0 9
0 truncate 0 4096
0 fstat 0
merge
"""
WANTED = f"""client 0
0 ok 0
0 ok 2
0 not taken ENOMEM
0 EFBIG
0 ok f 0644 0 0 2 1
0 ok {MOST - 1}
0 not taken ENOMEM
0 ok 0
0 ok ab
0 ok
0 ok f 0644 0 0 {HOLE} 1
0 ok {HOLE - 2}
0 ok 2
0 ok {HOLE - 3}
0 ok \\x00yz
0 ok
0 ok f 0644 0 0 4096 1
d 0755 0 0 0 1 /
f 0644 0 0 4096 1 /f
"""


def bounded():
    """Bounds the memory of the program that is begun."""
    resource.setrlimit(resource.RLIMIT_AS, (MEMORY, MEMORY))


def run(program, word, manifest, script):
    """What the program prints on a manifest, on standard error, and its status."""
    with tempfile.TemporaryDirectory(prefix="overlayd.") as folder:
        path = Path(folder, "manifest.toml")
        path.write_text(manifest)
        done = subprocess.run([program, word, path], input=script.encode(), capture_output=True,
                              check=False, timeout=SECONDS, preexec_fn=bounded)
    return done.stdout.decode(), done.stderr.decode(), done.returncode


def zeros(program, _):
    """Zeros of a manifest take little memory; 1 TiB of them end the program as without memory."""
    merge = f"d 0755 0 0 0 1 /\nf 0644 0 0 {HOLE} 1 /f\n"
    for count, wanted in [(HOLE, (merge, "", 0)), (MOST, ("", "overlayd: out of memory\n", 3))]:
        entry = f'[{{path = "/f", kind = "file", zeros = {count}}}]'
        manifest = f"file_limit = {MOST}\nlayer = [{{}}, {{entry = {entry}}}]\n"
        expect(run(program, "show", manifest, ""), wanted, "a show")


def truncates(program, _):
    """A call that makes a file of 1 TiB is refused, and the file is as it was; one of 2 GiB is made,
    and takes memory where it is written."""
    manifest = f"file_limit = {MOST}\nlayer = [{{}}, {{}}]\n"
    expect(run(program, "play", manifest, SCRIPT), (WANTED, "", 0), "a play")


TESTS = {"show, files over the memory": zeros, "play, files over the memory": truncates}
