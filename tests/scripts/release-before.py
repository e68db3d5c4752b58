"""What the release before wrote is read by the programs of today: images, records, status files, journals and packets of release/before. And nodes of
both make one cluster, in which each takes over from the other, with a key and without one."""
import gzip
import hashlib
import os
import pathlib
import re
import socket
import subprocess

from live import Cluster, Wrong, same, try_all, wait_for

QUORUMCTL = os.environ["QUORUMCTL"]
BEFORE = pathlib.Path(os.environ["TOP"]) / "release" / "before"
IDS = (1, 2, 3)
RUNS = {"one-image": (), "three-images": ("--images", "3")}


def unpacked(name, data):
    path = pathlib.Path(name).absolute()
    path.write_bytes(data)
    path.chmod(0o700)
    return path


def program_of(name):
    """The released program of that name, which SUMS names."""
    data = gzip.decompress((BEFORE / (name + ".gz")).read_bytes())
    sums = dict(line.split(" ", 1) for line in (BEFORE / "SUMS").read_text().splitlines())
    same("the sum of %s" % name, hashlib.sha256(data).hexdigest(), sums[name])
    return unpacked("before-" + name, data)


OLD, OLD_CONTROL = program_of("quorumd"), program_of("quorumctl")
# for Node, which names the program of today behind this one
STARTS_OLD = unpacked("starts-old", b'#!/bin/sh\nshift\nexec "%s" "$@"\n' % str(OLD).encode())


def answer(program, *words, text=None):
    done = subprocess.run([program, *map(str, words)], input=text, stdin=None if text else subprocess.DEVNULL, stdout=subprocess.PIPE, check=False, text=True)
    return done.returncode, done.stdout


def image():
    disk = unpacked("disk", gzip.decompress((BEFORE / "image" / "disk.gz").read_bytes()))
    for command in ("dump", "list"):
        same(command, answer(os.environ["QUORUMD"], command, "--image", disk), (0, (BEFORE / "image" / command).read_text()))
    same("check", answer(QUORUMCTL, "check", "--image", disk, text=(BEFORE / "one-image" / "conf").read_text())[0], 0)


def records():
    """Each line of a record is read. What a node does may have changed since: then the record is no run, and a line says where."""
    for folder, words in RUNS.items():
        head = (BEFORE / folder / "conf").read_text() + "----\n"
        for ident in IDS:
            record = (BEFORE / folder / ("%d.record" % ident)).read_text()
            words_of = ("audit", "--id", ident, "--turns", 100000, *words)
            same("%s, node %d, then" % (folder, ident), answer(OLD, *words_of, text=head + record)[0], 0)
            status, said = answer(os.environ["QUORUMD"], *words_of, text=head + record)
            if (status, said.split()[:2]) not in ((0, ["run", "whole"]), (0, ["run", "prefix"]), (18, ["fault", "NotARun"])):
                raise Wrong("%s, node %d: status %d, %s" % (folder, ident, status, said))


def without_ages(answered):
    return answered[0], re.sub(r" +\d+\.\d ?s", " AGE", answered[1])


def status_files():
    for folder in RUNS:
        for moment in ("healthy", "taken-over"):
            files = [BEFORE / folder / moment / ("%d.json" % ident) for ident in IDS]
            now, then = (without_ages(answer(program, "status", *files)) for program in (QUORUMCTL, OLD_CONTROL))
            same("%s, %s" % (folder, moment), now, then)
            same("rows of nodes", len(re.findall(r"(?m)^ +\d+ silent ", now[1])), 3)


def journals():
    for folder in RUNS:
        files = [BEFORE / folder / ("%d.journal" % ident) for ident in IDS]
        same(folder, answer(QUORUMCTL, "history", *files), answer(OLD_CONTROL, "history", *files))


class MixedCluster(Cluster):
    """A cluster in which nodes are of the release before, or of today, and change."""

    def __init__(self, name, key=False):
        self.key = key
        super().__init__(name)
        if key:
            (self.folder / "key").write_bytes(bytes(range(64)))
            (self.folder / "key").chmod(0o600)
            self.BEFORE = ("--links", str(self.folder / "conf"), "--key", str(self.folder / "key"))

    def place(self, ident):
        return "ring0_addr: 127.0.2.%d\n" % ident if self.key else ""

    def old(self, ident):
        return self.node(ident, run_as=(str(STARTS_OLD),), before=(*self.BEFORE, *self.status(ident)))

    def today(self, ident):
        return self.node(ident, before=(*self.BEFORE, *self.status(ident)))

    def status(self, ident):
        return "--status", str(self.folder / ("status.%d" % ident))

    def comes_to(self, holder):
        """Waits until all three nodes have one view, and that one of them holds."""
        def is_so():
            files = [self.folder / ("status.%d" % ident) for ident in IDS]
            return all(file.exists() for file in files) and answer(QUORUMCTL, "status", *files)[1].startswith("quorumd healthy: %d holds (no group)\n" % holder)
        wait_for("node %d holds and all are well" % holder, is_so)


def take_turns(cluster):
    """The first one is killed, and a node of today takes over from it; it boots as one of today; that one is sent away, and the other of today holds."""
    nodes = {1: cluster.old(1), 2: cluster.today(2), 3: cluster.old(3)}
    cluster.comes_to(1)
    nodes[1].kill()
    nodes[2].waits_for("start: ok")
    nodes[1] = cluster.today(1)
    cluster.comes_to(2)
    cluster.message(2, "exit")
    same("node 2", nodes[2].end(), (0, "left clean\n"))
    nodes[1].waits_for("start: ok")
    same("node 3 runs", nodes[3].runs(), True)


def one_cluster():
    take_turns(MixedCluster("mixed"))


def one_cluster_with_a_key():
    take_turns(MixedCluster("mixed-key", key=True))


def sealed_packets():
    """A node hears two others by packets that they sealed then."""
    cluster = Cluster("sealed")
    (cluster.folder / "conf").write_text((BEFORE / "sealed" / "conf").read_text())
    (cluster.folder / "key").write_bytes(bytes.fromhex((BEFORE / "sealed" / "key").read_text()))
    (cluster.folder / "key").chmod(0o600)
    node = cluster.node(3, before=("--links", str(cluster.folder / "conf"), "--key", str(cluster.folder / "key")))
    senders = [socket.socket(socket.AF_INET, socket.SOCK_DGRAM) for _ in (1, 2)]
    for place, sender in enumerate(senders):
        sender.bind(("127.0.1.%d" % (place + 1), cluster.port + place))
    packets = [bytes.fromhex(line) for line in (BEFORE / "sealed" / "packets").read_text().split()]

    def is_heard():
        for packet in packets:
            senders[packet[4]].sendto(packet, ("127.0.1.3", cluster.port + 2))
        return len(node.events("peer-seen")) == 2
    wait_for("both are heard", is_heard)


try_all(image, records, status_files, journals, one_cluster, one_cluster_with_a_key, sealed_packets)
