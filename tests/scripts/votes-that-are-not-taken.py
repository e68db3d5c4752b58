"""Votes of a quorum device that any user of the host sends: with --open, with a key and with --links they are not taken, and a node that is cut off
does not become quorate by them; without a word of a machine they are."""
import os
import socket
import threading
import time

from live import Cluster, same, try_all, wait_for

YES = b"QN\x05\x01"


class WithADevice(Cluster):
    """Two nodes and a device of one vote: a node that is alone is quorate by the device's vote alone."""

    def __init__(self, name):
        super().__init__(name, ids=(1, 2))
        conf = self.folder / "conf"
        conf.write_text(conf.read_text() + "quorum {\ndevice {\nmodel: net\nvotes: 1\n}\n}\n")
        self.key = self.folder / "key"
        self.key.write_bytes(os.urandom(64))
        self.key.chmod(0o600)

    def place(self, ident):
        return "ring0_addr: 127.0.0.%d\n" % ident


def voted(name, is_quorate, before):
    """A node that runs alone while such votes come, and whether it was ever quorate, some time after it saw that it is alone."""
    cluster = WithADevice(name)
    is_over, sender = threading.Event(), socket.socket(socket.AF_INET, socket.SOCK_DGRAM)

    def votes():
        while not is_over.wait(0.1):
            sender.sendto(YES, ("127.0.0.1", cluster.port))

    threading.Thread(target=votes, daemon=True).start()
    node = cluster.node(1, before=before(cluster))
    wait_for("%s: a view" % name, lambda: node.events("view"))
    time.sleep(3)
    is_over.set()
    same("runs: " + name, node.runs(), True)
    same("quorate: " + name, bool(node.events("quorum-won")), is_quorate)


def without_a_word():
    voted("without", True, lambda cluster: [])


def with_open():
    voted("open", False, lambda cluster: ["--open"])


def with_a_key():
    voted("key", False, lambda cluster: ["--key", str(cluster.key)])


def with_links():
    voted("links", False, lambda cluster: ["--open", "--links", str(cluster.folder / "conf")])


try_all(without_a_word, with_open, with_a_key, with_links)
