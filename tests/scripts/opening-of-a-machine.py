"""The opening of a node with a word of a machine before the command: each refusal and their order, with nothing made and nothing armed; the
warnings; and what the opening without such a word says in their place."""
import os
import resource
import socket
import stat
import subprocess

import live
from live import Cluster, same, try_all

ABSENT = "%s: No such file or directory (os error 2)"
NO_WATCHDOG = "%s: its time cannot be read: perhaps it is no watchdog, and resets nothing"
A_HALT = "%s: a file: a halt that is told to it ends nothing"
A_FILE = "%s: a file or a pipe: it resets nothing"
NO_HEADER = "%s: no image: its first sector is no header of version 2"
LIMIT = "file size: the size of a file is limited (ulimit -f), which would end this program"


class Stage:
    """A cluster of one node with all that it opens, of which parts can be spoilt."""

    def __init__(self, name):
        self.cluster = Cluster(name, ids=(1,), timing="5000,10000,1000,2000,1000")
        folder = self.cluster.folder
        self.parts = {name: folder / name for name in ("resource", "halt", "watchdog")}
        for path in self.parts.values():
            path.touch()
        self.holder, self.limit = None, False

    def spoil(self, what):
        """Takes away what this refusal is about."""
        if what == "limit":
            self.limit = True
        elif what == "port":
            self.holder = socket.socket(socket.AF_INET, socket.SOCK_DGRAM)
            self.holder.bind(("127.0.0.1", self.cluster.port))
        elif what == "image":
            self.cluster.image.unlink()
        elif what == "header":
            self.cluster.image.write_bytes(bytes(1 << 20))
        else:
            self.parts[what].unlink()

    def run(self, before, watchdog=None, image=None):
        """Status and line of the node, and what it said."""
        before = [str(self.parts["halt"]) if word == "HALT" else word for word in before]
        words = [live.QUORUMD, *before, "node", "--id", "1", "--image", str(image or self.cluster.image), "--watchdog", str(watchdog or self.parts["watchdog"]),
                 "--resource", str(self.parts["resource"]), "--port", str(self.cluster.port), "--turns", "10", "--leave", "1"]
        limited = (lambda: resource.setrlimit(resource.RLIMIT_FSIZE, (1 << 20, 1 << 20))) if self.limit else None
        with open(self.cluster.folder / "conf") as settings:
            done = subprocess.run(words, stdin=settings, capture_output=True, text=True, check=False, preexec_fn=limited)
        said = [line.removeprefix("quorumd: ") for line in done.stderr.splitlines() if not live.event_of(line)]
        return done.returncode, done.stdout, said


def files(cluster):
    return sorted((path.name, path.stat().st_size) for path in cluster.folder.iterdir())


def refusals_in_order():
    """From each part on all are spoilt: the line is of that part, and nothing is made or armed."""
    order = ["limit", "port", "image", "header", "resource", "halt", "watchdog"]
    for place, what in enumerate(order):
        stage = Stage("order-%s" % what)
        for part in order[place:]:
            if part != "header" or what == "header":
                stage.spoil(part)
        there = files(stage.cluster)
        image = stage.cluster.image
        lines = {"limit": LIMIT, "port": "port: Address already in use (os error 98)", "image": ABSENT % image, "header": NO_HEADER % image}
        wanted = lines.get(what) or ABSENT % stage.parts[what]
        warned = [A_HALT % stage.parts["halt"]] if what == "watchdog" else []
        same(what, stage.run(["--open", "--halt", "HALT"]), (8, "fault EnvFault\n", [*warned, wanted]))
        # a resource that is there was told to stop
        after = [(name, 0 if name == "resource" else size) for name, size in files(stage.cluster)]
        same("what is there at %s" % what, after, there)


def watchdogs():
    """What is no watchdog is refused by any of the words."""
    stage = Stage("watchdogs")
    folder = stage.cluster.folder / "folder"
    folder.mkdir()
    key = stage.cluster.folder / "key"
    key.write_bytes(os.urandom(64))
    key.chmod(0o600)
    for before in ["--open"], ["--halt", "HALT"], ["--key", str(key)]:
        warned = [A_HALT % stage.parts["halt"]] if "HALT" in before else []
        unsealed = [] if before[0] != "--halt" else ["packets carry no seal: any user of this host can forge them"]
        same("null device", stage.run(before, watchdog="/dev/null"), (8, "fault EnvFault\n", [*warned, NO_WATCHDOG % "/dev/null"]))
        same("folder", stage.run(before, watchdog=folder), (8, "fault EnvFault\n", [*warned, "%s: neither a device nor a file" % folder]))
        same("file", stage.run(before), (0, "left clean\n", [*warned, A_FILE % stage.parts["watchdog"], *unsealed]))


def without_a_word():
    """The same without a word: lines, and the node runs."""
    stage = Stage("without")
    unsealed = "packets carry no seal: any user of this host can forge them"
    same("null device", stage.run([], watchdog="/dev/null"), (0, "left clean\n", [NO_WATCHDOG % "/dev/null", unsealed]))
    same("file", stage.run([]), (0, "left clean\n", [A_FILE % stage.parts["watchdog"], unsealed]))
    stage.spoil("resource")
    stage.spoil("watchdog")
    same("absent", stage.run([]), (0, "left clean\n", [A_FILE % stage.parts["watchdog"], unsealed]))
    absent = stage.cluster.folder / "absent"
    made = "%s: nothing was there, and an empty file was made" % absent
    same("no image", stage.run([], image=absent)[:2], (14, "fault BootHalted 2\n"))
    same("it is made", absent.read_bytes(), b"")
    absent.unlink()
    same("and told", stage.run([], image=absent)[2][0], made)
    stage.spoil("limit")
    same("limit", stage.run([]), (8, "fault EnvFault\n", [LIMIT]))


def block_devices():
    """A block device as a path is refused, with and without a word, by a command too."""
    stage = Stage("block")
    device = stage.cluster.folder / "device"
    try:
        os.mknod(device, 0o600 | stat.S_IFBLK, os.makedev(7, 250))
    except PermissionError:
        print("skipped: block devices: this user makes none")
        return
    line = "%s: a block device is read through this host's cache: use nbd:" % device
    for before in [], ["--open"]:
        same("node", stage.run(before, image=device), (8, "fault EnvFault\n", [line]))
    done = subprocess.run([live.QUORUMD, "list", "--image", device], capture_output=True, text=True, check=False)
    same("list", (done.returncode, done.stdout, live.without_advice(done.stderr)), (8, "fault EnvFault\n", "quorumd: %s\n" % line))


try_all(refusals_in_order, watchdogs, without_a_word, block_devices)
