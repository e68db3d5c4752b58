"""Images on block servers: each command writes the same bytes and the same answers as on a file, over each server that is installed and one of
the tests' own, with places of 512 and of 4096 bytes; exports and greetings that are refused; a node, and three servers under `node3`."""
import os
import pathlib
import subprocess
import tempfile

import live
import nbd
from live import Cluster, TripleCluster, Wrong, same, try_all, wait_for
from nbd import BlockServer

TOP = pathlib.Path(os.environ["TOP"])
SETTINGS = {name: (TOP / "examples" / ("%s.conf" % name)).read_bytes() for name in ("one-node", "two-node", "usual")}
COMMANDS = (
    ("list", ""), ("create", "usual"), ("list", ""), ("dump", ""), ("message --id 2 --kind off", ""), ("message --id 2 --kind exit", ""),
    ("message --id 9 --kind off", ""), ("list", ""), ("message --id 2 --kind clear", ""), ("message --id 1 --kind test", ""), ("list", ""),
    ("migrate", ""), ("create --timing 500,2100,1000,1000,500", "two-node"), ("dump", ""), ("list", ""), ("create --timing 5000,1,1,1,1", "two-node"),
    ("create", "one-node"), ("message --id 1 --kind reset", ""), ("message --id 1 --kind crashdump", ""), ("list", ""),
)


def answer(command, image, settings=b""):
    """Status and output of a command on an image, and what it said of it. A `create` writes over what is there."""
    words = command.split()
    before = ["--anew"] if words[0] == "create" else []
    done = subprocess.run([live.QUORUMD, *before, words[0], "--image", str(image), *words[1:]], input=settings, capture_output=True, check=False)
    said = live.without_advice(done.stderr.decode())
    for name in image, str(image).removesuffix("@4096"):
        said = said.replace("quorumd: %s: " % name, "")
    return done.returncode, done.stdout.decode(), said


def bytes_of(file, stride=512):
    """The sectors of an image that stand so far apart."""
    data = file if isinstance(file, (bytes, bytearray)) else file.read_bytes()
    for at in range(0, len(data), stride):
        if any(data[at + 512:at + stride]):
            raise Wrong("bytes after the sector at %d" % at)
    return b"".join(bytes(data[at:at + 512]) for at in range(0, len(data), stride)).rstrip(b"\0")


def is_as_a_file(word, held, stride=512):
    """Each command in turn does the same on a file and on that image, whose bytes `held` gives."""
    file = pathlib.Path(tempfile.mkdtemp(dir=".")) / "image"  # of its own: other tests of this script run at the same time
    file.write_bytes(b"")
    for command, settings in COMMANDS:
        given = SETTINGS.get(settings, b"")
        same("%s on %s" % (command, word), answer(command, word, given), answer(command, file, given))
        same("bytes after %s on %s" % (command, word), bytes_of(held(), stride), bytes_of(file))


def commands_as_on_a_file():
    folder = pathlib.Path("servers").absolute()
    folder.mkdir()
    for _, word, file in nbd.installed(folder):
        is_as_a_file(word, file.read_bytes)
    own = BlockServer(folder / "own")
    is_as_a_file(own.word(), lambda: own.data)
    same("each write is to last", set(own.lasting), {True})


def names_over_a_socket():
    """A server that serves names only refuses the export without one; with one each command does as on a file."""
    folder = pathlib.Path("names").absolute()
    folder.mkdir()
    for unnamed, named, file in nbd.by_name(folder):
        same(unnamed, answer("list", unnamed), (8, "fault EnvFault\n", "the server refuses the export\n"))
        is_as_a_file(named, file.read_bytes)


def places_of_4096_bytes():
    folder = pathlib.Path("long").absolute()
    folder.mkdir()
    own = BlockServer(folder / "own", size=1 << 22, least=4096)
    refused = (8, "fault EnvFault\n", "its blocks are longer than a sector: write IMAGE@4096\n")
    same("places of 512 bytes", answer("list", own.word()), refused)
    is_as_a_file(own.word() + "@4096", lambda: own.data, stride=4096)
    file = folder / "file"
    file.write_bytes(b"")
    is_as_a_file("%s@4096" % file, file.read_bytes, stride=4096)


def what_is_refused():
    folder = pathlib.Path("refused").absolute()
    folder.mkdir()
    rows = (
        ({"flags": nbd.HAS_FLAGS}, "its writes do not last: the server takes no FUA"),
        ({"size": 1024 * 512 - 1}, "the export is shorter than 1024 sectors"),
        ({"least": 1024}, "its blocks are longer than a sector: write IMAGE@4096"),
        ({"greeting": b"NBDMAGIC" + bytes.fromhex("00420281861253") + b"\0\0\0"}, "no block server of fixed newstyle"),
        ({"greeting": b"NBDMAGICIHAVEOPT\0\2"}, "no block server of fixed newstyle"),
        ({"kind": nbd.UNKNOWN}, "the server refuses the export"),
    )
    for number, (given, why) in enumerate(rows):
        server = BlockServer(folder / ("server-%d" % number), **given)
        same(why, answer("create", server.word(), SETTINGS["one-node"]), (8, "fault EnvFault\n", why + "\n"))
        same("bytes after: %s" % why, bytes_of(server.data), b"")
    word = "no address and port of a block server"
    for image in "nbd:", "nbd:127.0.0.1", "nbd:localhost:10809", "nbd:127.0.0.1:", "nbd:127.0.0.1:99999", "nbd:::1:10809":
        same(image, answer("list", image), (8, "fault EnvFault\n", word + "\n"))
    same("a long name", answer("list", "nbd:127.0.0.1:1/" + "x" * 256), (8, "fault EnvFault\n", "the name of the export is too long\n"))
    same("a long word", answer("list", "nbd:unix:/" + "x" * 600), (8, "fault EnvFault\n", "too long for an image on a server\n"))
    same("nobody there", answer("list", "nbd:unix:%s" % (folder / "none")), (8, "fault EnvFault\n", "No such file or directory (os error 2)\n"))
    # a file of such a name
    same("a file", answer("create", "./nbd:file", SETTINGS["one-node"])[:2], (0, "created nodes 1\n"))
    same("it is there", pathlib.Path("nbd:file").exists(), True)


def an_export_that_can_only_be_read():
    folder = pathlib.Path("read-only").absolute()
    folder.mkdir()
    server = BlockServer(folder / "server")
    same("create", answer("create", server.word(), SETTINGS["one-node"]), (0, "created nodes 1\n", ""))
    server.flags = nbd.HAS_FLAGS | nbd.READ_ONLY
    before = bytes(server.data)
    same("list", answer("list", server.word()), (0, "node 1 incarnation 0 clean mail empty\n", ""))
    for command in "create", "message --id 1 --kind off":
        same(command, answer(command, server.word(), SETTINGS["one-node"]), (8, "fault EnvFault\n", "the export can only be read\n"))
    cluster = Cluster("read-only-node", ids=(1,))
    node = cluster.node(1, image=server.word())
    same("node", node.end(), (8, "fault EnvFault\n"))
    same("it said", node.said(), ["%s: the export can only be read" % server.word(), node.opened() + "failed"])
    same("bytes", bytes(server.data), before)


class ServedCluster(Cluster):
    """The image is on a server of the tests."""

    def __init__(self, name, **given):
        self.server = BlockServer(pathlib.Path("%s.socket" % name).absolute())
        super().__init__(name, **given)

    def use_images(self):
        self.images = [self.server.word()]


class ServedTriple(TripleCluster):
    """Each of the three images is on a server of its own."""

    def __init__(self, name, **given):
        self.servers = [BlockServer(pathlib.Path("%s.%d" % (name, number)).absolute()) for number in range(3)]
        super().__init__(name, **given)

    def use_images(self):
        self.images = [server.word() for server in self.servers]


def a_node():
    cluster = ServedCluster("node")
    nodes = [cluster.node(ident) for ident in (1, 2, 3)]
    nodes[0].waits_for("start: ok")
    cluster.message(1, "exit")
    same("answer", nodes[0].end(), (0, "left clean\n"))
    nodes[1].waits_for("start: ok")
    cluster.message(2, "off")
    same("answer", nodes[1].end(), (13, "fault SelfReset off\n"))
    same("its slots", [cluster.listed(1), cluster.listed(2)], ["incarnation 1 clean mail exit", "incarnation 1 dirty mail off"])
    same("each write is to last", set(cluster.server.lasting), {True})


def three_servers():
    """A node holds over three servers, also while one of them takes no connection and closes those it has; it is used again once it is back."""
    cluster = ServedTriple("three", ids=(1,))
    node = cluster.node(1)
    node.waits_for("start: ok")
    lost = cluster.servers[1]
    lost.fault = lambda number: "close"
    fed = len(cluster.watchdog(1))
    wait_for("node 1 is fed", lambda: len(cluster.watchdog(1)) > fed + 4)
    same("it holds", cluster.resource(1), "held")
    lost.fault = lambda number: None
    requests = lost.requests
    wait_for("the server is asked again", lambda: lost.requests > requests + 3)
    cluster.message(1, "exit")
    same("answer", node.end(), (0, "left clean\n"))
    same("its slots", [cluster.listed(1, image=image) for image in cluster.images], ["incarnation 1 clean mail exit"] * 3)


try_all(commands_as_on_a_file, names_over_a_socket, places_of_4096_bytes, what_is_refused, an_export_that_can_only_be_read, a_node, three_servers)
