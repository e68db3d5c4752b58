"""Nodes with a key whose addresses are of a network of their own, each in a network namespace, by IPv4 and by IPv6: one takes over from another;
a fourth one with another key or another settings text hears nobody and is heard by nobody; and a key is changed by restarts, each of which
costs a view without the node that is away, and no other."""
import os
import subprocess
import sys

from live import LONG_LOOP, Cluster, Node, in_namespace, same, try_all
from rotation import TIMING, rotate

NAMESPACES = {}  # of each node a process that keeps its namespace


def ip(*words, inside=None):
    enter = ("nsenter", "-t", str(NAMESPACES[inside].pid), "-n") if inside else ()
    subprocess.run([*enter, "ip", *words], check=True)


def join(idents):
    """A bridge, and a namespace for each node with an address of each family."""
    ip("link", "add", "bridge", "type", "bridge")
    ip("link", "set", "bridge", "up")
    for ident in idents:
        keeper = subprocess.Popen(["unshare", "-n", "sh", "-c", "echo; exec cat"], stdin=subprocess.PIPE, stdout=subprocess.PIPE)
        keeper.stdout.readline()
        NAMESPACES[ident] = keeper
        ip("link", "add", "port%d" % ident, "type", "veth", "peer", "name", "member", "netns", str(keeper.pid))
        ip("link", "set", "port%d" % ident, "master", "bridge", "up")
        for words in (("link", "set", "lo", "up"), ("link", "set", "member", "up"), ("addr", "add", "10.77.0.%d/24" % ident, "dev", "member"),
                      ("addr", "add", "fd77::%d/64" % ident, "dev", "member", "nodad")):
            ip(*words, inside=ident)


class LinkedCluster(Cluster):
    def __init__(self, name, network, ids=(1, 2, 3), timing=LONG_LOOP):
        self.network = network
        super().__init__(name, ids=ids, timing=timing)
        for key in ("old", "new"):
            (self.folder / key).write_bytes(os.urandom(128))
            (self.folder / key).chmod(0o600)

    def place(self, ident):
        return "ring0_addr: %s%d\n" % (self.network, ident)

    def linked(self, ident, *keys, conf="conf"):
        before = ["--links", str(self.folder / conf), *(word for key in keys or ("old",) for word in ("--key", str(self.folder / key)))]
        return Node(self, ident, before=before, run_as=("nsenter", "-t", str(NAMESPACES[ident].pid), "-n"), conf=conf)


def without_losses(node):
    return [line for line in node.said()[1:] if not line.startswith("refused ")]


def take_over(network, name):
    """Node 1 holds and is killed, and node 2 follows it."""
    cluster = LinkedCluster(name, network)
    nodes = [cluster.linked(ident) for ident in (1, 2, 3)]
    nodes[0].waits_for("start: ok")
    nodes[0].kill()
    nodes[1].waits_for("start: ok")
    same("said", [node.said()[1:] for node in nodes], [["start: ok"], ["start: ok"], []])


class RotatedCluster(LinkedCluster):
    COMMAND = "node-logged"


def rotation(network, name):
    """One node after the other is sent away and comes back with the next keys."""
    cluster = RotatedCluster(name, network, timing=TIMING)
    rotate(cluster, cluster.linked)


def fourth(network, name, *keys, **given):
    """Three of four nodes do without the fourth one, which sees no quorum, and reset it."""
    cluster = LinkedCluster(name, network, ids=(1, 2, 3, 4))
    conf = (cluster.folder / "conf").read_text()
    (cluster.folder / "text").write_text(conf + "# another text\n")
    nodes = [cluster.linked(ident) for ident in (1, 2, 3)] + [cluster.linked(4, *keys, **given)]
    same("node 4", nodes[3].end(), (13, "fault SelfReset reset\n"))
    nodes[0].waits_for("start: ok")
    same("said", [without_losses(node) for node in nodes], [["start: ok"], [], [], ["halt 2: ok"]])
    same("they run", [node.runs() for node in nodes[:3]], [True] * 3)


def scenes(family, network):
    for scene, keys, given in (take_over, (), {}), (rotation, (), {}), (fourth, ("new",), {}), (fourth, (), {"conf": "text"}):
        def tried(scene=scene, keys=keys, given=given, name="-".join([family, scene.__name__, *keys, *given])):
            scene(network, name, *keys, **given)
        tried.__name__ = "%s %s %s %s" % (family, scene.__name__, keys, given)
        yield tried


if not in_namespace("ip link set lo up && ip addr add fd77::1/64 dev lo && ip link add one type bridge && ip link add two type veth && unshare -n true"):
    print("skipped: no network namespaces with bridges: nodes on a network of their own")
    sys.exit(0)
join((1, 2, 3, 4))
try_all(*scenes("IPv4", "10.77.0."), *scenes("IPv6", "fd77::"))
