"""Nodes that run and are disturbed: a watchdog that is full and one that is a pipe, bytes from the port of a node that does not run and from a port of
no node, and a node that stands
still for less than three loops, and for so long that another one follows it."""
import os
import random
import re
import select
import signal
import socket
import struct
import time

from live import Cluster, Wrong, same, try_all, wait_for

LOOP = 1.0  # seconds, of live.LONG_LOOP


NO_WATCHDOG = "its time cannot be read: perhaps it is no watchdog, and resets nothing"


def full_watchdog():
    """No feed is taken, which each time is said; the node goes on until its machine ends it."""
    cluster = Cluster("full", ids=(1,))
    node = cluster.node(1, watchdog="/dev/full", before=())  # it is no watchdog, which a word of a machine refuses
    node.waits_for("start: ok")
    cluster.message(1, "exit")
    same("answer", node.end(), (0, "left clean\n"))
    full = "/dev/full: No space left on device (os error 28)"
    same("standard error", [line for line in node.said() if line != full], ["/dev/full: " + NO_WATCHDOG, node.opened() + "ok", "start: ok", "stop: ok", "disarm: failed"])
    same("that of the disarm", node.said()[-2:], [full, "disarm: failed"])


def pipe_as_watchdog():
    """A pipe hands on each feed, and the disarm."""
    cluster = Cluster("pipe", ids=(1,))
    path = cluster.folder / "pipe"
    os.mkfifo(path)
    reader = os.open(path, os.O_RDWR)
    node = cluster.node(1, watchdog=path)
    for _ in range(8):  # some of the boot, and then one a loop
        same("a feed comes", [bool(each) for each in select.select([reader], [], [], 60)], [True, False, False])
        same("a feed", os.read(reader, 1), b"1")
    cluster.message(1, "exit")
    same("answer", node.end(), (0, "left clean\n"))
    same("the last byte", os.read(reader, 1000).lstrip(b"1"), b"V")


def strange_bytes(seed, count):
    """Bytes that no node sent: of any length, and packets with something wrong, or of nodes and views that are not there."""
    draw = random.Random(seed)
    for _ in range(count):
        packet = draw.choice([
            draw.randbytes(draw.randrange(0, 300)),
            b"QN" + draw.randbytes(draw.randrange(0, 40)),
            b"QN" + bytes([draw.randrange(1, 6)]) + draw.randbytes(draw.randrange(0, 40)),
            b"QN\3" + bytes([draw.randrange(5, 256)]),  # a Hello of a rank that is not there
            b"QN\4" + bytes([2]) + struct.pack(">QI", draw.randrange(2**32), 1 << draw.randrange(5, 32)),  # a view of nodes that are not
            b"QN\2" + bytes([1, 0]) + struct.pack(">QQQIB", 9, 9, 9, 7, draw.randrange(0, 256)),  # a Tell to nothing that was asked
        ])
        yield packet


def stranger():
    """Bytes from the port of a node that does not run: nobody starts, stops or is reset, and nothing is said but that some named another sender."""
    cluster = Cluster("stranger", ids=(1, 2, 3, 4, 5))
    nodes = [cluster.node(ident) for ident in (1, 2, 3, 4)]
    nodes[0].waits_for("start: ok")
    with socket.socket(socket.AF_INET, socket.SOCK_DGRAM) as sender:
        sender.bind(("127.0.0.1", cluster.port + 4))
        for number, packet in enumerate(strange_bytes(24, 600)):
            sender.sendto(packet, ("127.0.0.1", cluster.port + number % 4))
            time.sleep(0.005)
    fed = len(cluster.watchdog(1))
    wait_for("node 1 is fed", lambda: len(cluster.watchdog(1)) > fed + 1)
    same("said", [[line for line in node.said()[1:] if not line.startswith("refused ")] for node in nodes], [["start: ok"], [], [], []])
    same("listed", [cluster.listed(ident) for ident in (1, 2, 3, 4)], ["incarnation 1 dirty mail empty"] * 4)
    cluster.message(1, "exit")
    same("answer", nodes[0].end(), (0, "left clean\n"))
    nodes[1].waits_for("start: ok")


def outsider():
    """Bytes from a port of no node are passed over, which one line says: they cost no turn, and forge nothing."""
    cluster = Cluster("outsider", ids=(1, 2))
    node = cluster.node(1, turns=200)
    with socket.socket(socket.AF_INET, socket.SOCK_DGRAM) as sender:
        hello = b"QN\3\1"
        began = time.monotonic()
        while node.runs():
            for packet in (hello, *strange_bytes(25, 20)):
                sender.sendto(packet, ("127.0.0.1", cluster.port))
            time.sleep(0.002)
    status, answer = node.end()
    same("answer", (status, answer.split(" quorate")[0]), (0, "turns 200 up holds=no"))
    if time.monotonic() - began < 200 * 0.035:
        raise Wrong("200 turns took %.1f s" % (time.monotonic() - began))
    said = [line for line in node.said()[1:] if not re.fullmatch(r"refused count=\d+ unsealed=0 astray=0 old=0 elsewhere=\d+", line)]
    same("said", (said, len(node.said())), ([], 2))


def stands_still():
    """A holder that stands still for less than three loops goes on as before; for longer, and it finds the reset when it goes on. Before
    that it may stop the resource, since it sees nobody at first."""
    cluster = Cluster("still")
    nodes = [cluster.node(ident) for ident in (1, 2, 3)]
    nodes[0].waits_for("start: ok")
    nodes[0].kill(signal.SIGSTOP)
    time.sleep(LOOP / 2)
    nodes[0].kill(signal.SIGCONT)
    fed = len(cluster.watchdog(1))
    wait_for("node 1 is fed", lambda: len(cluster.watchdog(1)) > fed + 1)
    same("said", [node.said()[1:] for node in nodes], [["start: ok"], [], []])
    nodes[0].kill(signal.SIGSTOP)
    nodes[1].waits_for("start: ok")
    same("node 1 has not read its mailbox", cluster.has_written_reset(by=2, to=1) is not None, True)
    nodes[0].kill(signal.SIGCONT)
    same("answer", nodes[0].end(), (13, "fault SelfReset reset\n"))
    stops = nodes[0].ticks("stop: ok")
    same("node 1 said", nodes[0].said()[1:], ["start: ok", *["stop: ok" for _ in stops], "halt 2: ok"])
    same("the resource of a node without a machine", cluster.resource(1), "free" if stops else "held")


try_all(full_watchdog, pipe_as_watchdog, stranger, outsider, stands_still)
