"""Three nodes with a key on a network that delays each packet by another time, up to 2, 20 and 500 ms, so that packets overtake one another: nobody
is reset, the holder goes on, and no packet is refused. OVERTAKING_SECONDS in the environment is how long each is so, 40 where it is absent."""
import os
import sys
import time

from live import LONG_LOOP, Cluster, Node, in_namespace, same, try_all
from relays import Namespaces, Relay

IDS = 1, 2, 3
SECONDS = int(os.environ.get("OVERTAKING_SECONDS", "40"))


class Place(Namespaces):
    """A namespace for each node, whose device leads to a port of the relay."""

    def __init__(self, name, greatest):
        super().__init__(name, IDS)
        for ident in IDS:
            self.give_address(ident, 0, "10.77.0.%d/24" % ident)
        self.relay = Relay(self.ports[0], greatest, name)


class KeyedCluster(Cluster):
    def __init__(self, name):
        super().__init__(name, ids=IDS, timing=LONG_LOOP)
        self.key = self.folder / "key"
        self.key.write_bytes(os.urandom(128))
        self.key.chmod(0o600)

    def place(self, ident):
        return "ring0_addr: 10.77.0.%d\n" % ident


def overtaking(milliseconds):
    place = Place("o%d" % milliseconds, milliseconds / 1000)
    cluster = KeyedCluster("overtake-%d" % milliseconds)
    before = ["--links", str(cluster.folder / "conf"), "--key", str(cluster.key)]
    nodes = [Node(cluster, ident, before=before, run_as=place.enter(ident)) for ident in IDS]
    nodes[0].waits_for("start: ok")
    time.sleep(SECONDS)
    what = "up to %d ms" % milliseconds
    same("they run: " + what, [node.runs() for node in nodes], [True] * len(IDS))
    same("they did: " + what, [node.said()[1:] for node in nodes], [["start: ok"], [], []])


def up_to_2_ms():
    overtaking(2)


def up_to_20_ms():
    overtaking(20)


def up_to_500_ms():
    overtaking(500)


if not in_namespace("ip link set lo up && ip link add one type veth && unshare -n true"):
    print("skipped: no network namespaces: packets that overtake one another")
    sys.exit(0)
try_all(up_to_2_ms, up_to_20_ms, up_to_500_ms)
