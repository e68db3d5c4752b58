"""An arbiter that runs, asked by polls that are made here: it says no for a lease, then yes to one side at a time; its journal and its status; under a
key it takes polls of nodes alone, and none twice, also while another user floods it; what it does not open with, it says in a line."""
import hashlib
import os
import pathlib
import socket
import struct
import subprocess
import sys
import time

from arbiters import SEATS, Arbiter
from live import QUORUMD, free_ports, same, try_all, wait_for
from polls import poll, reply, sealed
from meaning import SEAL_MEANING, address, fields, node_bytes, tag_of

TIMEOUT = 500
LIMIT, LEASE = 100, 614  # a fifth of the timeout, and the least with 99 * (lease - 1) >= 101 * (limit + timeout)
YES, NO = 1, 0


def conf_of(ids=(1, 2), host="", address=""):
    """The settings text of two nodes and a device."""
    nodes = "".join("node {\nnodeid: %d\n%s}\n" % (one, address and "ring0_addr: %s\n" % (address % one)) for one in ids)
    net = host and "net {\nhost: %s\n}\n" % host
    return "nodelist {\n%s}\nquorum {\nprovider: corosync_votequorum\ndevice {\nmodel: net\nvotes: 1\ntimeout: %d\n%s}\n}\n" % (nodes, TIMEOUT, net)


class Asker:
    """The socket of a node of that rank."""

    def __init__(self, port, rank, host="127.0.0.1"):
        self.rank, self.arbiter = rank, (host, port + 32)
        self.socket = socket.socket(socket.AF_INET, socket.SOCK_DGRAM)
        self.socket.bind((host, port + rank))
        self.socket.settimeout(10)
        self.count = 0

    def ask(self, members, **given):
        """The answer to the next poll."""
        number, self.count = self.count, self.count + 1
        self.socket.sendto(poll(self.rank, number, members, **given), self.arbiter)
        answer = self.socket.recv(200)
        agrees = answer[-1]
        same("a reply", answer, reply(self.rank, number, agrees, given.get("incarnation", 1), given.get("install", 1)))
        return agrees


def one_side_at_a_time():
    port = free_ports(SEATS)
    arbiter = Arbiter("sides", conf_of(), port)
    opening = arbiter.opened()
    same("its times", (opening["lease"], opening["limit"]), (str(LEASE), str(LIMIT)))
    first, second = Asker(port, 0), Asker(port, 1)
    begun = time.monotonic()
    answers = []
    while time.monotonic() - begun < LEASE / 1000 - 0.2:
        answers.append(first.ask(1))
        time.sleep(0.02)
    same("within a lease of its boot", set(answers), {NO})
    wait_for("a yes", lambda: first.ask(1) == YES)
    same("to the other side", second.ask(2), NO)
    same("to a view with a node in common", second.ask(3), YES)
    same("to the first side, whose node that view has", first.ask(1), YES)
    same("of an earlier view, once a later one was heard", (second.ask(3, install=2), second.ask(3, install=1)), (YES, NO))
    time.sleep(LEASE / 1000 + 0.2)
    same("to the other side, once a lease is over", second.ask(2, install=3), YES)
    same("then to the first side", first.ask(1), NO)
    wait_for("the status of it", lambda: arbiter.status()["polls"] == first.count + second.count)
    status = arbiter.status()
    same("its status", {key: status[key] for key in ("arbiter", "format", "lease", "limit", "refused", "waits")},
         {"arbiter": True, "format": 1, "lease": LEASE, "limit": LIMIT, "refused": 0, "waits": 0})
    same("its counts", status["yes"] + status["no"], status["polls"])
    same("its nodes", [(node["id"], node["incarnation"], node["view"]) for node in status["nodes"]], [(1, 1, [1]), (2, 1, [2])])
    votes = [(event["id"], event["answer"], event["view"]) for event in arbiter.events("vote")]
    same("its votes", votes, [("1", "no", "1"), ("1", "yes", "1"), ("2", "no", "2"), ("2", "yes", "1,2"), ("2", "no", "1,2"), ("2", "yes", "2"), ("1", "no", "1")])


def nobody_else_is_answered():
    port = free_ports(SEATS)
    arbiter = Arbiter("others", conf_of(), port)
    arbiter.opened()
    node = Asker(port, 0)
    other = socket.socket(socket.AF_INET, socket.SOCK_DGRAM)
    for bytes_ in (b"", b"QN\x05\x01", poll(0, 0, 1)[:-1], poll(0, 0, 0), poll(32, 0, 1), reply(0, 0, 1), b"QN\x03\x00"):
        node.socket.sendto(bytes_, node.arbiter)
    other.sendto(poll(1, 0, 2), node.arbiter)
    same("after all that", node.ask(1), NO)
    wait_for("one poll alone", lambda: arbiter.status()["polls"] == 1)
    same("of an address of no node, and a reply", wait_for("what was refused", lambda: arbiter.status()["refused"]), 2)


def with_a_key(name, conf):
    """A new key in a folder of that name beside the text, and the words that name both."""
    folder = pathlib.Path(name)
    folder.mkdir()
    key = folder / "key"
    key.write_bytes(os.urandom(64))
    key.chmod(0o600)
    (folder / "conf").write_text(conf)
    return key, ("--links", str(folder / "conf"), "--key", str(key))


def under_a_key():
    port = free_ports(SEATS)
    conf = conf_of(host="127.0.2.9", address="127.0.2.%d")
    key, with_key = with_a_key("keys", conf)
    arbiter = Arbiter("sealed", conf, port, before=with_key)
    arbiter.opened()
    secret, text = hashlib.sha256(key.read_bytes()).digest(), hashlib.sha256(conf.encode()).digest()
    node = socket.socket(socket.AF_INET, socket.SOCK_DGRAM)
    host = "127.0.2.2"  # the node of rank 1
    node.bind((host, port + 1))
    node.settimeout(10)
    at = ("127.0.2.9", port + 32)
    good = sealed(secret, text, 1, 32, 1, poll(1, 0, 2))
    for packet in (poll(1, 0, 2), good[:-1] + bytes([good[-1] ^ 1]), sealed(secret, b"\0" * 32, 1, 32, 1, poll(1, 0, 2)),
                   sealed(secret, text, 1, 32, 1, poll(0, 0, 2)), sealed(secret, text, 1, 32, 1, b"QN\x03\x01"), sealed(secret, text, 1, 0, 1, poll(1, 0, 2))):
        node.sendto(packet, at)
    node.sendto(good, at)
    answer = node.recv(200)
    same("the seat of the reply, and whom it is to", answer[4:6], bytes([32, 1]))
    boot, number = struct.unpack(">QQ", answer[6:22])
    same("the reply", answer, sealed(secret, text, 32, 1, number, reply(1, 0, NO), boot))
    node.sendto(good, at)
    wait_for("what was refused", lambda: arbiter.status()["refused"] == 7)
    same("one poll alone was taken", arbiter.status()["polls"], 1)


def with_the_meaning():
    """It is asked beside the bytes of its text, and answers beside what that says."""
    port = free_ports(SEATS)
    conf = conf_of(host="127.0.2.9", address="127.0.2.%d")
    key, with_key = with_a_key("meaning", conf)
    Arbiter("means", conf, port, before=(*with_key, SEAL_MEANING)).opened()
    nodes = node_bytes(1, "127.0.2.1") + node_bytes(2, "127.0.2.2")
    device = bytes([1]) + fields((4, 1), (8, TIMEOUT)) + bytes([1]) + address("127.0.2.9") + bytes(2)
    said = b"QNTEXT01" + bytes([2]) + nodes + bytes(3) + fields((8, 10000), (8, 3)) + device + bytes(1)
    secret = hashlib.sha256(key.read_bytes()).digest()
    node = socket.socket(socket.AF_INET, socket.SOCK_DGRAM)
    node.bind(("127.0.2.2", port + 1))
    node.settimeout(10)
    for number, text in enumerate((conf.encode(), said)):
        node.sendto(sealed(secret, hashlib.sha256(text).digest(), 1, 32, number + 1, poll(1, number, 2)), ("127.0.2.9", port + 32))
        answer = node.recv(200)
        same("the tag of the reply", answer[-32:], tag_of(key.read_bytes(), said, answer[:-32]))


FLOOD = """
import os, socket, sys, time
port, polled, end = int(sys.argv[1]), bytes.fromhex(sys.argv[2]), time.monotonic() + 2
to = socket.socket(socket.AF_INET, socket.SOCK_DGRAM)
while time.monotonic() < end:
    for packet in polled, polled[:-1] + b"x", polled[:40], polled[22:62], os.urandom(94), b"QN" + os.urandom(38), b"", bytes(9000):
        to.sendto(packet, ("127.0.2.9", port + 32))
"""


def a_flood_of_another_user():
    """A poll that was recorded, the same changed, cut short and bare, and others, as fast as another user of the host can send: none is taken, the node is
    answered on, and what was refused is counted and said in a line."""
    port = free_ports(SEATS)
    conf = conf_of(host="127.0.2.9", address="127.0.2.%d")
    key, with_key = with_a_key("flooded", conf)
    arbiter = Arbiter("flood", conf, port, before=with_key)
    arbiter.opened()
    secret, text = hashlib.sha256(key.read_bytes()).digest(), hashlib.sha256(conf.encode()).digest()
    node = socket.socket(socket.AF_INET, socket.SOCK_DGRAM)
    node.bind(("127.0.2.2", port + 1))
    node.settimeout(0.1)
    packet = sealed(secret, text, 1, 32, 1, poll(1, 0, 2))
    as_other = ["setpriv", "--reuid=65534", "--regid=65534", "--clear-groups"] if os.getuid() == 0 else []
    flood = subprocess.Popen([*as_other, sys.executable, "-c", FLOOD, str(port), packet.hex()])
    asked, answered = 0, 0
    while flood.poll() is None or not answered:
        node.sendto(sealed(secret, text, 1, 32, asked + 1, poll(1, asked, 2)), ("127.0.2.9", port + 32))
        asked += 1
        try:
            same("the seat of a reply, and whom it is to", node.recv(200)[4:6], bytes([32, 1]))
            answered += 1
        except TimeoutError:  # the poll had no room beside the flood
            pass
    same("the flood", flood.returncode, 0)
    wait_for("the last packet is taken", lambda: arbiter.status()["polls"] >= answered)
    same("polls of the node alone were taken", arbiter.status()["polls"] <= asked, True)
    same("what was refused is counted", arbiter.status()["refused"] > 100, True)
    same("lines that say so", len(arbiter.events("packets-refused")), 1)


def ended(words, conf):
    done = subprocess.run([QUORUMD, *words], input=conf, capture_output=True, text=True, check=False, timeout=60)
    return done.returncode, done.stdout, done.stderr


def what_it_does_not_open_with():
    port = free_ports(SEATS)
    at = ("--port", str(port), "--turns", "2")
    same("the last turn", ended(["--open", "arbiter", *at], conf_of())[:2], (0, "turns 2\n"))
    same("no device", ended(["--open", "arbiter", *at], "nodelist {\nnode {\nnodeid: 1\n}\n}\n")[:2], (3, "fault NoArbiter\n"))
    same("no settings", ended(["--open", "arbiter", *at], "")[:2], (3, "fault BadConf NoNodes\n"))
    same("no such word", ended(["arbiter", "--id", "1"], conf_of())[:2], (2, "fault Usage\n"))
    same("a port of no number", ended(["arbiter", "--port", "70000"], conf_of())[:2], (2, "fault Usage\n"))
    taken = socket.socket(socket.AF_INET, socket.SOCK_DGRAM)
    taken.bind(("127.0.0.1", port + 32))
    same("a port in use", ended(["--open", "arbiter", *at], conf_of())[:2], (8, "fault EnvFault\n"))
    conf = pathlib.Path("links")
    for line, text in [
            ("device: no host", conf_of(address="127.0.2.%d")),
            ("device: third is no address", conf_of(host="third", address="127.0.2.%d")),
            ("device: 0.0.0.0 is no address", conf_of(host="0.0.0.0", address="127.0.2.%d")),
            ("device: ::1 is of another family than the nodes", conf_of(host="::1", address="127.0.2.%d")),
            ("device: many is no port", conf_of(host="127.0.2.9\nport: many", address="127.0.2.%d")),
            ("device: 65536 is no port", conf_of(host="127.0.2.9\nport: 65536", address="127.0.2.%d"))]:
        conf.write_text(text)
        same(line, ended(["--open", "--links", str(conf), "arbiter", *at], text), (2, "", "quorumd: links: %s\n" % line))
        same("a node with it: " + line, ended(["--open", "--links", str(conf), "help"], text)[0], 0)


try_all(one_side_at_a_time, nobody_else_is_answered, under_a_key, with_the_meaning, a_flood_of_another_user, what_it_does_not_open_with)
