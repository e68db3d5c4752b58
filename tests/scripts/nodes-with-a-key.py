"""Nodes with a key: between addresses of their own one takes over from another; a node with another key, another settings text or no key
hears nobody and is heard by nobody; packets that a stranger makes from the port of a node that was killed move nothing and cost no turn;
and a key is changed by restarts, while somebody holds."""
import os
import random
import re
import socket
import struct
import time

from live import Cluster, Wrong, same, try_all
from rotation import TIMING, rotate

NOT_TAKEN = r"refused count=\d+ unsealed=(\d+) astray=(\d+) old=(\d+) elsewhere=(\d+)"


class KeyCluster(Cluster):
    """Nodes at addresses of their own, and two keys."""

    BEFORE = ()

    def __init__(self, name, **given):
        super().__init__(name, **given)
        for key in ("old", "new"):
            (self.folder / key).write_bytes(os.urandom(128))
            (self.folder / key).chmod(0o600)

    def place(self, ident):
        return "ring0_addr: 127.0.1.%d\n" % ident

    def words(self, *keys, conf="conf"):
        return ["--links", str(self.folder / conf), *(word for key in keys for word in ("--key", str(self.folder / key)))]

    def sealed(self, ident, *keys, **given):
        return self.node(ident, before=self.words(*keys or ("old",)), **given)


def without_losses(node):
    """What a node said, but for packets that it did not take."""
    return [line for line in node.said()[1:] if not re.fullmatch(NOT_TAKEN, line)]


def take_over():
    cluster = KeyCluster("takes")
    nodes = [cluster.sealed(ident) for ident in (1, 2, 3)]
    nodes[0].waits_for("start: ok")
    nodes[0].kill()
    nodes[1].waits_for("start: ok")
    same("said", [node.said()[1:] for node in nodes], [["start: ok"], ["start: ok"], []])


def apart(name, before, conf="conf"):
    """Node 3 is alone: the others do without it, and reset it."""
    cluster = KeyCluster(name)
    text = (cluster.folder / "conf").read_text()
    (cluster.folder / "other").write_text(text + "# another text\n")
    nodes = [cluster.sealed(1), cluster.sealed(2), cluster.node(3, before=before(cluster), conf=conf)]
    same("node 3", nodes[2].end(), (13, "fault SelfReset reset\n"))
    nodes[0].waits_for("start: ok")
    same("nodes 1 and 2", [without_losses(node) for node in nodes[:2]], [["start: ok"], []])
    same("node 3 said", without_losses(nodes[2]), ["halt 2: ok"])
    same("they see two", nodes[1].runs(), True)


def another_key():
    apart("key", lambda cluster: cluster.words("new"))


def another_text():
    apart("text", lambda cluster: cluster.words("old", conf="other"), conf="other")


def no_key():
    apart("open", lambda cluster: [*cluster.words(), "--open"])


def forged(draw):
    """A packet that says what serves a stranger: a Hello, a view, or that a node holds nothing."""
    sender = draw.randrange(3)
    return draw.choice([
        b"QN\3" + bytes([sender]),
        b"QN\4" + bytes([sender]) + struct.pack(">QI", draw.randrange(1, 40), draw.randrange(1, 8)),
        b"QN\2" + bytes([sender, draw.randrange(3)]) + struct.pack(">QQQIB", 1, draw.randrange(9), draw.randrange(9), draw.randrange(1, 8), 2),
        draw.randbytes(draw.randrange(200)),
        bytes(60000),
    ])


def stranger_at_a_free_port():
    """Node 3 was killed, and a stranger has its port."""
    cluster = Cluster("forged")
    cluster.BEFORE = ("--key", str(cluster.folder / "key"))
    (cluster.folder / "key").write_bytes(os.urandom(64))
    (cluster.folder / "key").chmod(0o600)
    nodes = [cluster.node(ident, turns=400) for ident in (1, 2, 3)]
    nodes[0].waits_for("start: ok")
    nodes[2].kill()
    nodes[2].end()
    began, draw = time.monotonic(), random.Random(24)
    with socket.socket(socket.AF_INET, socket.SOCK_DGRAM) as sender:
        sender.bind(("127.0.0.1", cluster.port + 2))
        while any(node.runs() for node in nodes[:2]):
            for _ in range(20):
                for rank in (0, 1):
                    sender.sendto(forged(draw), ("127.0.0.1", cluster.port + rank))
            time.sleep(0.002)
    same("node 1", nodes[0].end(), (0, "turns 400 up holds=yes quorate=yes 2/2 why=holding\n"))
    same("node 2", nodes[1].end(), (0, "turns 400 up holds=no quorate=yes 2/2 why=not-chosen:1\n"))
    same("said", [without_losses(node) for node in nodes[:2]], [["start: ok"], []])
    same("lines of what was not taken", [len(node.said()) - len(without_losses(node)) for node in nodes[:2]], [2, 2])
    if time.monotonic() - began < 5:
        raise Wrong("400 turns were over %.1f s after the flood began" % (time.monotonic() - began))


class RotatedCluster(KeyCluster):
    COMMAND = "node-logged"


def new_key():
    """One node after the other is sent away and comes back with the next keys."""
    cluster = RotatedCluster("rotates", timing=TIMING)
    rotate(cluster, cluster.sealed)


try_all(take_over, another_key, another_text, no_key, stranger_at_a_free_port, new_key)
