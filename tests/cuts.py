"""For the scripts that drop packets between nodes: clusters whose nodes start one after the other, and a network in which each way from
one node to another can be cut. It is the firewall of a network namespace of its own, where those are to be had, else a relay between
the nodes."""
import selectors
import socket
import subprocess
import threading

from live import Cluster, Wrong, free_ports, in_namespace, milliseconds, same, wait_for

TIMES = "500,2100,1000,1000,500"
MSGWAIT, LOOP = 2100, 1000
BOUND = MSGWAIT + 8 * LOOP  # from a cut until a majority that is well has a holder, as docs/dev/VIEWS.md says
STAGGER = 618  # thousandths of a loop between two starts, counted round within a loop

RULES = """table inet cuts {
    set cut { type inet_service . inet_service; flags timeout; }
    chain arrivals { type filter hook input priority 0; policy accept; udp sport . udp dport @cut drop; }
}
"""


def is_bound(udp, port):
    """Whether a socket could be bound to that port of this host."""
    try:
        udp.bind(("127.0.0.1", port))
    except OSError:
        return False
    return True


class Firewall:
    """Drops packets by their two ports, in a network namespace of its own."""

    def __init__(self):
        self.lock = threading.Lock()
        subprocess.run(["ip", "link", "set", "lo", "up"], check=True)
        self.nft(RULES)

    def nft(self, text):
        with self.lock:
            subprocess.run(["nft", "-f", "-"], input=text.encode(), check=True)

    def ports(self, count):
        """The first port that each node is given: its own is as many after that as its rank says."""
        return [free_ports(count)] * count

    @staticmethod
    def say(ports, sender, receiver, packet):
        """A packet to a node as from another one, which does not run."""
        with socket.socket(socket.AF_INET, socket.SOCK_DGRAM) as stranger:
            wait_for("the port of a node that ended is free", lambda: is_bound(stranger, ports[sender] + sender))
            stranger.sendto(packet, ("127.0.0.1", ports[receiver] + receiver))

    def set(self, ports, ways, is_cut):
        """Cuts or joins the ways, which are pairs of ranks."""
        if ways:
            self.nft("%s element inet cuts cut { %s }\n" % ("add" if is_cut else "delete", ", ".join(self.pairs(ports, ways))))

    def cut_for(self, ports, ways, length):
        """Cuts the ways for so many milliseconds, which the kernel counts: a machine that has other work makes them no longer."""
        self.nft("add element inet cuts cut { %s }\n" % ", ".join("%s timeout %dms" % (pair, length) for pair in self.pairs(ports, ways)))

    @staticmethod
    def pairs(ports, ways):
        return ["%d . %d" % (ports[sender] + sender, ports[receiver] + receiver) for sender, receiver in sorted(ways)]


class Relay:
    """Each node has first ports of its own: behind that of another node the relay listens, and hands on what comes there, from the port
    at which the receiver looks for the sender."""

    def __init__(self):
        self.cut = set()  # pairs of the port that it listens at and the port that it hands on to
        self.cut_until = {}  # the same, and the millisecond at which the way is whole again
        self.at = {}  # the socket of each port
        self.selector = selectors.DefaultSelector()
        threading.Thread(target=self.serve, daemon=True).start()

    def ports(self, count):
        """The first port that each node is given; other ones where somebody took one of them meanwhile."""
        ways = [(sender, receiver) for sender in range(count) for receiver in range(count) if sender != receiver]
        for _ in range(20):
            first = free_ports(count * count)
            ports = [first + rank * count for rank in range(count)]
            sockets = self.sockets(ports, ways)
            if sockets is not None:
                for sender, receiver in ways:
                    way = ports[sender] + receiver, ports[receiver] + receiver
                    self.selector.register(sockets[sender, receiver], selectors.EVENT_READ, (way, sockets[receiver, sender]))
                return ports
        raise Wrong("no ports for a relay")

    def sockets(self, ports, ways):
        """Of each way the socket that stands for the receiver at the sender's ports; None where a port is taken."""
        found = {way: socket.socket(socket.AF_INET, socket.SOCK_DGRAM) for way in ways}
        try:
            for (sender, receiver), each in found.items():
                each.bind(("127.0.0.1", ports[sender] + receiver))
        except OSError:
            for each in found.values():
                each.close()
            return None
        self.at.update({each.getsockname()[1]: each for each in found.values()})
        return found

    def say(self, ports, sender, receiver, packet):
        """A packet to a node as from another one."""
        self.at[ports[receiver] + sender].sendto(packet, ("127.0.0.1", ports[receiver] + receiver))

    def serve(self):
        while True:
            for key, _ in self.selector.select(0.05):
                packet = key.fileobj.recv(4096)
                way, back = key.data
                if way not in self.cut and milliseconds() >= self.cut_until.get(way, 0):
                    back.sendto(packet, ("127.0.0.1", way[1]))

    def set(self, ports, ways, is_cut):
        pairs = self.pairs(ports, ways)
        self.cut = self.cut | pairs if is_cut else self.cut - pairs

    def cut_for(self, ports, ways, length):
        self.cut_until.update(dict.fromkeys(self.pairs(ports, ways), milliseconds() + length))

    @staticmethod
    def pairs(ports, ways):
        return {(ports[sender] + receiver, ports[receiver] + receiver) for sender, receiver in ways}


def network():
    """The network of a script: a namespace with a firewall, in which it is started again, or where that is not to be had a relay."""
    if in_namespace("ip link set lo up && nft list ruleset"):
        return Firewall()
    print("skipped: no network namespace with nft: the packets are dropped by a relay")
    return Relay()


class CutCluster(Cluster):
    """A cluster of so many nodes, which start one after the other and all see each other; node 1 holds."""

    def __init__(self, name, count, joined, timing=TIMES):
        self.count, self.joined = count, joined
        self.ways = {(sender, receiver) for sender in range(count) for receiver in range(count) if sender != receiver}
        self.is_cut = set()
        super().__init__(name, ids=range(1, count + 1), timing=timing)
        self.nodes, self.killed = [], {}

    def first_port(self, count):
        self.ports = self.joined.ports(count)
        return self.ports[0]

    def boot(self, number):
        """All boot within a loop, and how they stand to one another differs from number to number."""
        places = sorted(range(self.count), key=lambda rank: STAGGER * (rank + number) % LOOP)
        began = milliseconds()
        nodes = {}
        for rank in places:
            due = began + STAGGER * (rank + number) % LOOP
            threading.Event().wait(max(0, due - milliseconds()) / 1000)
            nodes[rank] = self.node(rank + 1, port=self.ports[rank])
        self.nodes = [nodes[rank] for rank in range(self.count)]

    def start(self, number):
        """All boot, and node 1 holds."""
        self.boot(number)
        self.nodes[0].waits_for("start: ok")
        threading.Event().wait(2 * LOOP / 1000 + STAGGER * number % LOOP / 1000)
        self.all_are_quiet()
        return self

    def kill(self, ident):
        self.killed[ident] = milliseconds()
        self.nodes[ident - 1].kill()
        return self.killed[ident]

    # ---- cuts

    def cut(self, ways):
        self.joined.set(self.ports, ways - self.is_cut, True)
        self.is_cut |= ways
        return milliseconds()

    def heal(self):
        self.joined.set(self.ports, self.is_cut, False)
        self.is_cut = set()
        return milliseconds()

    def dark_for(self, length):
        """No packet comes for so many milliseconds. The moment at which that was over at the latest."""
        self.joined.cut_for(self.ports, self.ways, length)
        end = milliseconds() + length
        threading.Event().wait(length / 1000)
        return end

    def of(self, ident, out=True, into=True):
        """The ways from a node, and those to it."""
        return {way for way in self.ways if out and way[0] == ident - 1 or into and way[1] == ident - 1}

    # ---- what is so

    def every(self):
        """Each process of a node."""
        return self.nodes

    def all_are_quiet(self):
        """Node 1 holds, and nothing else happened."""
        said = [node.said()[1:] for node in self.nodes]
        same("said", said, [["start: ok"]] + [[] for _ in self.nodes[1:]])
        same("runs", [node.runs() for node in self.nodes], [True] * self.count)

    def stay_quiet(self, loops):
        threading.Event().wait(loops * LOOP / 1000)
        self.all_are_quiet()

    def only_ended(self, *idents):
        """Which nodes have ended: these, and no other."""
        same("ended", [node.ident for node in self.nodes if not node.runs()], list(idents))

    def is_reset(self, ident):
        same("node %d" % ident, self.nodes[ident - 1].end(), (13, "fault SelfReset reset\n"))

    def holds(self):
        """Of each time that a node held by its own words: when it started, when it held no more or was killed, and its id."""
        spans = []
        for node in self.every():
            ends = sorted(tick for line in ("stop: ok", "halt 2: ok", "disarm: ok") for tick in node.ticks(line))
            for begin in node.ticks("start: ok"):
                spans.append((begin, min([tick for tick in ends if tick >= begin], default=self.killed.get(node.ident)), node.ident))
        return sorted(spans)

    def never_two_hold(self):
        """By the clock that all of them read."""
        spans = self.holds()
        for (_, end, before), (begin, _, after) in zip(spans, spans[1:]):
            if end is None or end > begin:
                raise Wrong("node %d holds until %s, and node %d from %d on" % (before, end, after, begin))

    def holder_within(self, since, loops_and_msgwait=BOUND):
        """The node that holds, once there is one again after this moment, which has to be in time."""
        def held():
            return [(begin, ident) for begin, end, ident in self.holds() if begin > since and end is None and self.nodes[ident - 1].runs()]
        begin, ident = wait_for("a holder after %d" % since, held)[0]
        if begin - since > loops_and_msgwait:
            raise Wrong("node %d starts %d ms after that, and not within %d" % (ident, begin - since, loops_and_msgwait))
        return ident
