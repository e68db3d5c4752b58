"""For what runs nodes on two networks: a cluster of three in namespaces."""
import json
import os
import time

from live import LONG_LOOP, Cluster, Node, done_of, same, wait_for
from relays import Namespaces, Relay

IDS = 1, 2, 3
LOOP = 1.0  # of LONG_LOOP, in seconds
IPV4 = ("10.77.0.%d", "24"), ("10.77.1.%d", "24")  # the addresses on both networks
SAID = "network-lost", "network-back"


class TwoNetworks(Cluster):
    """A cluster whose nodes are on two networks, with a key, and the relay of each network."""

    TIMES = LONG_LOOP

    def __init__(self, name, networks=IPV4, absent=()):
        self.networks = networks
        super().__init__(name, ids=IDS, timing=self.TIMES)
        (self.folder / "key").write_bytes(os.urandom(128))
        (self.folder / "key").chmod(0o600)
        text = (self.folder / "conf").read_text()
        (self.folder / "one").write_text("".join(line + "\n" for line in text.splitlines() if "ring1_addr" not in line))
        self.spaces = Namespaces(name, IDS, networks=2)
        for ident in IDS:
            for network in 0, 1:
                if (ident, network) not in absent:
                    self.give_address(ident, network)
        self.nodes = {}
        self.join()

    def join(self):
        """Joins the ports of each network."""
        self.relays = [Relay(ports, seed=self.folder.name) for ports in self.spaces.ports]

    def place(self, ident):
        return "".join("ring%d_addr: %s\n" % (network, form % ident) for network, (form, _) in enumerate(self.networks))

    def give_address(self, ident, network):
        form, width = self.networks[network]
        self.spaces.give_address(ident, network, form % ident + "/" + width)

    def start(self, ident, conf="conf"):
        before = ["--links", str(self.folder / conf), "--key", str(self.folder / "key"), "--seal-meaning", "--status", str(self.status_of(ident))]
        self.nodes[ident] = Node(self, ident, before=before, run_as=self.spaces.enter(ident), conf=conf)
        return self.nodes[ident]

    def start_all(self, conf="conf"):
        for ident in IDS:
            self.start(ident, conf)
        self.nodes[1].waits_for("start: ok")
        wait_for("all are in one view", lambda: all(self.members(ident) == list(IDS) for ident in IDS))
        time.sleep(4 * LOOP)

    def status_of(self, ident):
        return self.folder / ("status.%d" % ident)

    def shown(self, ident):
        path = self.status_of(ident)
        return json.loads(path.read_text()) if path.exists() else {}

    def members(self, ident):
        return (self.shown(ident).get("view") or {}).get("members")

    def down(self, ident):
        """The network that the status file of a node says is down, of each other node by its id."""
        return {peer["id"]: peer.get("network_down") for peer in self.shown(ident)["peers"]}

    def views(self):
        return {ident: len(node.events("view")) for ident, node in self.nodes.items()}

    def changes(self, ident):
        """What a node said of networks: the event, the network and the other node, sorted."""
        return sorted((event["event"], int(event["network"]), int(event["id"])) for event in self.nodes[ident].events(*SAID))

    def did(self):
        """What each node that runs did since its opening. That a feed came too late says that the machine had other work."""
        return [[done for done in map(done_of, node.events()) if done][1:] for node in self.nodes.values() if node.runs()]

    def goes_on(self, what, views):
        """Nobody was reset, the holder goes on, and there was no view since."""
        same("they did: " + what, self.did(), [["start: ok"], [], []])
        same("views: " + what, self.views(), views)
