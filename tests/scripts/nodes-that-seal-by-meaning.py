"""Packets are sealed beside the bytes of the settings text, and with --seal-meaning beside what it says, which is spelled a second time here. Nodes that seal so
are told to by restarts, and then a comment is rolled out by restarts, the holder last: somebody holds, and nobody is reset. A node whose text says
another number of votes hears nobody and is heard by nobody. The text on standard input is that of --links byte for byte, or nothing is opened."""
import os
import socket
import subprocess

from live import PATIENCE, QUORUMD, Cluster, in_namespace, same, try_all
from meaning import SEAL_MEANING, address, fields, node_bytes, tag_of
from rotation import TIMING, rotate

TAG = 32
COMMENT = "# a comment\nlogging {\nto_syslog: yes\n}\n"


class SealedCluster(Cluster):
    """Nodes at addresses of their own, with a key."""

    COMMAND = "node-logged"

    def __init__(self, name, **given):
        super().__init__(name, **given)
        self.key = self.folder / "key"
        self.key.write_bytes(os.urandom(128))
        self.key.chmod(0o600)
        text = (self.folder / "conf").read_text()
        (self.folder / "commented").write_text(COMMENT + text)
        (self.folder / "votes").write_text(text.replace("nodeid: 3", "nodeid: 3\nquorum_votes: 2"))

    def place(self, ident):
        return "ring0_addr: 127.0.1.%d\n" % ident

    def sealed(self, ident, conf, *words):
        return self.node(ident, before=["--links", str(self.folder / conf), "--key", str(self.key), *words], conf=conf)


def rolled_out(name, *steps):
    cluster = SealedCluster(name, timing=TIMING)
    rotate(cluster, cluster.sealed, steps)


def the_word():
    rolled_out("word", ("conf",), ("conf", SEAL_MEANING))


def a_comment():
    rolled_out("comment", ("conf", SEAL_MEANING), ("commented", SEAL_MEANING))


def other_votes():
    cluster = SealedCluster("votes")
    nodes = [cluster.sealed(1, "conf", SEAL_MEANING), cluster.sealed(2, "commented", SEAL_MEANING), cluster.sealed(3, "votes", SEAL_MEANING)]
    status, said = nodes[2].end()
    same("node 3", (status, said.splitlines()[-1]), (13, "fault SelfReset reset"))
    nodes[0].waits_for("start: ok")
    same("they see two", nodes[1].runs(), True)


def another_text_on_standard_input():
    """A byte more, one less, and another one: the node and the arbiter open nothing. What is only asked for is as ever."""
    cluster = SealedCluster("another")
    text = (cluster.folder / "conf").read_bytes()
    line = "quorumd: %s: the settings text on standard input is another one\n" % (cluster.folder / "conf")
    before = ["--links", str(cluster.folder / "conf"), "--key", str(cluster.key)]
    node = ["node", "--id", "1", "--image", str(cluster.image), "--watchdog", "watchdog", "--resource", "resource", "--port", str(cluster.port), "--turns", "1"]
    for name, other in ("more", text + b"\n"), ("less", text[:-1]), ("none", b""), ("changed", text.replace(b"nodeid: 3", b"nodeid: 4")):
        done = subprocess.run([QUORUMD, *before, *node], input=other, capture_output=True, check=False)
        same(name, (done.returncode, done.stdout.decode(), done.stderr.decode()), (6, "fault ReadFault\n", line))
    done = subprocess.run([QUORUMD, *before, "count"], input=b"node 1 1\n", capture_output=True, check=False)
    same("count", (done.returncode, done.stderr), (0, b""))


def conf(first, second, more="", quorum=""):
    """A settings text of two nodes, 1 and 2, at these addresses."""
    return """nodelist {
node {
ring0_addr: %s
nodeid: 2
}
node {
nodeid: 1
%sring0_addr: %s
name: one
}
}
quorum {
%s}
""" % (second, more, first, quorum)


PAIR = "127.0.1.1", "127.0.1.2"
PLAIN = b"QNTEXT01" + bytes([2]) + node_bytes(1, PAIR[0]) + node_bytes(2, PAIR[1])
WINDOW = fields((8, 10000))
SIX = "fd77::1", "fd77::2"
DEVICE = "device {\nmodel: net\nvotes: 3\ntimeout: 7000\n%s}\n"
# a name, a settings text of two nodes, the address of each, and what it says
TEXTS = (
    ("plain", conf(*PAIR), PAIR, PLAIN + bytes(3) + WINDOW + fields((8, 2)) + bytes(2)),
    ("numbers", conf(*PAIR, "quorum_votes: 258\nfence_delay: 66051\n", "expected_votes: 7\nwait_for_all: 1\n"), PAIR,
     b"QNTEXT01" + bytes([2]) + node_bytes(1, PAIR[0], 258, 66051) + node_bytes(2, PAIR[1]) + bytes([0, 1, 0]) + WINDOW + fields((8, 7)) + bytes(2)),
    ("two-node", conf(*PAIR, quorum="two_node: 1\n"), PAIR, PLAIN + bytes([1, 1, 0]) + WINDOW + fields((8, 2)) + bytes(2)),
    ("last-man", conf(*PAIR, quorum="last_man_standing: 1\nlast_man_standing_window: 300\n"), PAIR,
     PLAIN + bytes([0, 0, 1]) + fields((8, 300), (8, 2)) + bytes(2)),
    ("tie", conf(*PAIR, quorum="auto_tie_breaker: 1\nauto_tie_breaker_node: 2 1\n"), PAIR,
     PLAIN + bytes(3) + WINDOW + fields((8, 2)) + bytes([0, 1, 2]) + fields((4, 2), (4, 1))),
    ("device", conf(*PAIR, quorum=DEVICE % ""), PAIR,
     PLAIN + bytes(3) + WINDOW + fields((8, 5)) + bytes([1]) + fields((4, 3), (8, 7000)) + bytes(2)),
    ("named-arbiter", conf(*PAIR, quorum=DEVICE % "net {\nhost: third\nport: 7432\n}\n"), PAIR,
     PLAIN + bytes(3) + WINDOW + fields((8, 5)) + bytes([1]) + fields((4, 3), (8, 7000)) + bytes(2)),
    ("arbiter", conf(*PAIR, quorum=DEVICE % "net {\nhost: 127.0.1.9\nport: 7432\n}\n"), PAIR,
     PLAIN + bytes(3) + WINDOW + fields((8, 5)) + bytes([1]) + fields((4, 3), (8, 7000)) + bytes([1]) + address("127.0.1.9") + fields((2, 7432)) + bytes(1)),
    ("arbiter-port", conf(*PAIR, quorum=DEVICE % "net {\nhost: 127.0.1.9\n}\n"), PAIR,
     PLAIN + bytes(3) + WINDOW + fields((8, 5)) + bytes([1]) + fields((4, 3), (8, 7000)) + bytes([1]) + address("127.0.1.9") + bytes(2) + bytes(1)),
    ("six", conf(*SIX), SIX, b"QNTEXT01" + bytes([2]) + node_bytes(1, SIX[0]) + node_bytes(2, SIX[1]) + bytes(3) + WINDOW + fields((8, 2)) + bytes(2)),
)


def first_packet(cluster, words, at):
    """The first packet that node 1 sends to node 2, which is at this address."""
    family = socket.AF_INET6 if ":" in at else socket.AF_INET
    with socket.socket(family, socket.SOCK_DGRAM) as receiver:
        receiver.bind((at, cluster.port + 1))
        receiver.settimeout(PATIENCE)
        node = cluster.sealed(1, "conf", *words)
        packet = receiver.recv(256)
        node.kill()
    return packet


def spelled(name, text, at, beside, *words):
    """A node of two that has this settings text, and says these words, seals beside these bytes."""
    def tried():
        cluster = SealedCluster(name, ids=(1, 2))
        (cluster.folder / "conf").write_text(text)
        packet = first_packet(cluster, words, at[1])
        same("a packet", (packet[:3], packet[4:6]), (b"QN\x20", bytes([0, 1])))
        same("its tag", packet[-TAG:], tag_of(cluster.key.read_bytes(), beside, packet[:-TAG]))
    tried.__name__ = name
    return tried


PREPARED = "ip link set lo up && ip addr add fd77::1/128 dev lo nodad && ip addr add fd77::2/128 dev lo nodad"
if not in_namespace(PREPARED):
    print("skipped: no network namespaces: what seals packets")
else:
    os.system(PREPARED)
    try_all(the_word, a_comment, other_votes, another_text_on_standard_input, spelled("bytes", TEXTS[0][1], PAIR, TEXTS[0][1].encode()), *(spelled(*each, SEAL_MEANING) for each in TEXTS))
