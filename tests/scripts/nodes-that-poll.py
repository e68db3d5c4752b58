"""Two nodes and their arbiter: where the other node is dead, the arbiter's yes makes a node quorate; an arbiter that is killed is told as silent, and
is heard again once it runs; so it is on one host, and between addresses under a key. What a stranger replies is not taken. Under another key nobody is
answered. The record of a node that polls is one, by `audit --polls`. A node whose text has a name for the host starts, polls nobody and says so."""
import json
import os
import socket
import subprocess

from arbiters import SEATS, Arbiter
from live import QUORUMD, Cluster, free_ports, same, try_all, wait_for
from polls import poll, reply

TIMEOUT = 6000  # of the device, in milliseconds: a reply is taken within a fifth of it
AT = "127.0.3.9"  # the arbiter's address, where it has one of its own


class Polled(Cluster):
    """Two nodes and a device, on one host."""

    BEFORE = ("--open",)
    HOST = "127.0.0.1"

    def __init__(self, name):
        super().__init__(name, ids=(1, 2))
        conf = self.folder / "conf"
        device = "device {\nmodel: net\nvotes: 1\ntimeout: %d\nnet {\nhost: %s\n}\n}\n" % (TIMEOUT, self.HOST)
        conf.write_text(conf.read_text().replace("corosync_votequorum\n", "corosync_votequorum\n" + device))

    def first_port(self, count):
        return free_ports(SEATS)

    def before(self):
        return list(self.BEFORE)

    def arbiter(self, name, **given):
        return Arbiter(str(self.folder / name), (self.folder / "conf").read_text(), self.port, before=self.before(), **given)

    def member(self, ident):
        return self.node(ident, before=[*self.before(), "--status", str(self.folder / ("status.%d" % ident))])

    def status(self, ident):
        path = self.folder / ("status.%d" % ident)
        return json.loads(path.read_text()) if path.exists() else {}

    def answer(self, ident):
        return self.status(ident).get("arbiter", {}).get("answer")


class Linked(Polled):
    """The same at addresses of their own, under a key."""

    BEFORE = ()
    HOST = AT
    KEY = "key"

    def __init__(self, name):
        super().__init__(name)
        for key in "key", "other":
            (self.folder / key).write_bytes(os.urandom(64))
            (self.folder / key).chmod(0o600)

    def place(self, ident):
        return "ring0_addr: 127.0.3.%d\n" % ident

    def before(self, key="key"):
        return ["--links", str(self.folder / "conf"), "--key", str(self.folder / key)]


def is_alone_and_quorate(cluster):
    status = cluster.status(1)
    return status["quorate"] and status["view"] and status["view"]["members"] == [1] and status["arbiter"]["answer"] == "yes"


def half_is_quorate(cluster):
    """The arbiter is killed and started anew, and then the other node is killed."""
    arbiter = cluster.arbiter("first")
    arbiter.opened()
    nodes = [cluster.member(ident) for ident in (1, 2)]
    nodes[0].waits_for("start: ok")
    for ident, node in zip((1, 2), nodes):
        wait_for("node %d is answered yes" % ident, lambda ident=ident: cluster.answer(ident) == "yes")
        same("it says so", node.events("device")[-1]["answer"], "yes")
    same("the arbiter's address", cluster.status(1)["arbiter"]["address"], "%s:%d" % (cluster.HOST, cluster.port + 32))
    arbiter.process.kill()
    for ident, node in zip((1, 2), nodes):
        silent = wait_for("node %d says that it is silent" % ident, lambda node=node: node.events("device-silent"))
        same("for how long", int(silent[0]["age"]) >= TIMEOUT, True)
        wait_for("node %d has no answer" % ident, lambda ident=ident: cluster.answer(ident) == "none")
    same("two of three votes are enough", cluster.status(1)["quorate"], True)
    cluster.arbiter("second").opened()
    wait_for("node 1 is answered yes again", lambda: cluster.answer(1) == "yes")
    nodes[1].kill()
    wait_for("node 1 is alone and quorate", lambda: is_alone_and_quorate(cluster))
    same("it runs", nodes[0].runs(), True)


def on_one_host():
    half_is_quorate(Polled("host"))


def under_a_key():
    half_is_quorate(Linked("links"))


def replies_of_a_stranger():
    """Somebody has the arbiter's port, and another one the port of no seat."""
    cluster = Polled("stranger")
    arbiter, other = (socket.socket(socket.AF_INET, socket.SOCK_DGRAM) for _ in range(2))
    arbiter.settimeout(30)
    arbiter.bind(("127.0.0.1", cluster.port + 32))
    cluster.member(1)
    asked, node = arbiter.recvfrom(200)
    same("the first poll", asked, poll(0, 0, asked[39])[:28] + asked[28:])
    for sender, answer in (other, reply(0, 0, 1)), (arbiter, reply(1, 0, 1)), (arbiter, b"QN\x05\x01"), (arbiter, b"QN\x03\x01"):
        sender.sendto(answer, node)
    for number in range(1, 4):
        asked = arbiter.recv(200)
        same("the next poll", asked[4:12], number.to_bytes(8, "big"))
    same("no answer", cluster.answer(1), "none")
    sent = 0
    while cluster.answer(1) != "yes":
        sent += 1
        answer = reply(0, int.from_bytes(arbiter.recv(200)[4:12], "big"), 1)
        for _ in range(2):
            arbiter.sendto(answer, node)
    same("each reply counts once", cluster.status(1)["arbiter"]["yes"] <= sent, True)


def recorded():
    """The record of a node that polls is judged with its limit, and is none of a node that polls nobody."""
    class Recorded(Polled):
        COMMAND = "node-logged"
    cluster = Recorded("record")
    cluster.arbiter("arbiter").opened()
    node = cluster.node(1, turns=400)
    same("its end", node.end()[0], 0)
    same("it was answered", [event["answer"] for event in node.events("device")], ["no", "yes"])
    log = node.answer.read_text().rpartition("turns ")[0]
    head = (cluster.folder / "conf").read_text() + "----\n"

    def audit(*more):
        done = subprocess.run([QUORUMD, "audit", "--id", "1", "--turns", "400", *more], input=head + log, stdout=subprocess.PIPE, text=True, check=False)
        return done.returncode, done.stdout
    same("with its limit", audit("--polls", str(TIMEOUT // 5)), (0, "run whole turns 400\n"))
    same("as one that polls nobody", audit()[0], 18)


def another_key():
    cluster = Linked("keys")
    arbiter = Arbiter(str(cluster.folder / "arbiter"), (cluster.folder / "conf").read_text(), cluster.port, before=cluster.before("other"))
    arbiter.opened()
    node = cluster.member(1)
    wait_for("it polls, and is not answered", lambda: node.events("device-silent"))
    same("its status", cluster.answer(1), "none")
    wait_for("what the arbiter refused", lambda: arbiter.status()["refused"])
    same("what it answered", arbiter.status()["polls"], 0)


def a_name_for_the_host():
    class Named(Linked):
        HOST = "third.example"
    cluster = Named("name")
    conf = cluster.folder / "conf"
    node, other = cluster.member(1), cluster.member(2)
    node.waits_for("start: ok")
    same("it says so", node.said()[0], "%s: device: third.example is no address: no arbiter is polled" % conf)
    same("and so does the other", other.said()[0], node.said()[0])
    same("it polls nobody", "arbiter" in cluster.status(1), False)


try_all(on_one_host, under_a_key, replies_of_a_stranger, recorded, another_key, a_name_for_the_host)
