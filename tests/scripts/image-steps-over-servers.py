"""The same steps on an image in a file and on one in an etcd cluster, and on one behind a block server: the same answers, and the same sectors. What
differs is a file's own, and stands in a table with its reason: exactly these steps differ."""
import contextlib
import os
import pathlib
import resource
import shutil
import subprocess
import sys

import etcd
import live
from live import same, try_all

TOP = pathlib.Path(os.environ["TOP"])
HOST, SERVERS = "", []  # where an etcd is, and the scripts that run a command over a server
if etcd.is_there():
    HOST = etcd.servers()[0].host
    SERVERS.append("over-etcd")
else:
    print("skipped: no etcd (Debian: etcd-server)")
if shutil.which("nbdkit"):
    SERVERS.append("over-nbd")
else:
    print("skipped: no nbdkit (Debian: nbdkit)")
ONE, TWO, MANY = ("".join(["nodelist {\n", *("node {\nnodeid: %d\n}\n" % (number + 1) for number in range(count)), "}\n"]).encode() for count in (1, 2, 32))
SLOT = b"SLOT".ljust(512, b"\1")

# a case: what the image is called, and its steps. A step is the words of a command with the settings text on standard input and a limit on the size of
# files, or bytes that are put into the file at a place, or the length that the file is cut to
CASES = {
    "a life": ("image", [
        ("create", TWO), ("list",), ("dump",), ("message", "--id", "2", "--kind", "off"), ("message", "--id", "2", "--kind", "reset"), ("list",),
        ("message", "--id", "2", "--kind", "clear"), ("message", "--id", "1", "--kind", "exit"), ("message", "--id", "3", "--kind", "test"), ("list",), ("migrate",),
        ("create", ONE), ("list",), ("create", MANY), ("message", "--id", "32", "--kind", "test"), ("list",),
    ]),
    "no image": ("image", [("list",), ("dump",), ("message", "--id", "1", "--kind", "off"), ("migrate",), ("create", b"nodelist {\n"), ("list",)]),
    "wrong sectors": ("image", [
        ("create", TWO), (512, SLOT), ("list",), ("dump",), ("message", "--id", "1", "--kind", "off"), (0, b"x"), ("list",), ("dump",), ("create", TWO), ("list",),
    ]),
    "a part of a sector": ("image", [("create", TWO), (514 * 512, b"abc"), ("list",), ("message", "--id", "1", "--kind", "off"), (300,), ("list",), ("dump",)]),
    "cut": ("image", [("create", TWO), (513 * 512,), ("list",), ("message", "--id", "2", "--kind", "off"), (700,), ("list",), ("dump",), ("create", TWO), ("list",)]),
    "no folder": ("none/image", [("create", ONE), ("dump",), ("list",), ("message", "--id", "1", "--kind", "off")]),
    "a limit on a file": ("image", [
        ("create", TWO, 512 * 512), ("dump",), ("create", TWO), ("message", "--id", "2", "--kind", "off", 513 * 512), ("list",),
    ]),
}
FOLDER = "a file needs a folder, and a prefix of keys and an export none"
LIMIT = "the system limits how long a file gets, and no key and no export"
DIFFERS = {
    ("no folder", 1): FOLDER, ("no folder", 2): FOLDER, ("no folder", 3): FOLDER, ("no folder", 4): FOLDER,
    ("a limit on a file", 1): LIMIT, ("a limit on a file", 2): LIMIT, ("a limit on a file", 4): LIMIT, ("a limit on a file", 5): LIMIT,
}


def limited(limit):
    if limit:
        resource.setrlimit(resource.RLIMIT_FSIZE, (limit, resource.getrlimit(resource.RLIMIT_FSIZE)[1]))


def called(program, image, step):
    """What a command answers."""
    words = [word for word in step if isinstance(word, str)]
    text = next((word for word in step if isinstance(word, bytes)), b"")
    limit = next((word for word in step if isinstance(word, int)), None)
    done = subprocess.run([*program, words[0], "--image", str(image), *words[1:]], input=text, stdout=subprocess.PIPE, stderr=subprocess.DEVNULL,
                          preexec_fn=lambda: limited(limit), check=False, env=dict(os.environ, PROGRAM=live.QUORUMD, ETCD=HOST))
    return done.returncode, done.stdout.decode()


def stepped(program, image, step):
    """What a step answers, and the bytes of the file after it."""
    said = None
    if isinstance(step[0], str):
        said = called(program, image, step)
    else:
        with open(image, "r+b") as file:
            if len(step) == 1:
                file.truncate(step[0])
            else:
                file.seek(step[0])
                file.write(step[1])
    found = None
    with contextlib.suppress(OSError):
        found = image.read_bytes()
    return said, found


def case(name, server):
    place, steps = CASES[name]
    programs = {"file": [live.QUORUMD], "server": [sys.executable, "-B", str(TOP / "tests" / server)]}
    images = {kind: pathlib.Path(server, name.replace(" ", "-"), kind).absolute() / place for kind in programs}
    for image in images.values():
        (image.parent if place == "image" else image.parent.parent).mkdir(parents=True)
    for number, step in enumerate(steps, 1):
        one, other = (stepped(programs[kind], images[kind], step) for kind in programs)
        wanted = (name, number) in DIFFERS
        same("%s: %s, step %d differs: %r and %r" % (server, name, number, one[0], other[0]), one != other, wanted)


def steps_of_all():
    for server in SERVERS:
        for name in CASES:
            case(name, server)


try_all(steps_of_all)
