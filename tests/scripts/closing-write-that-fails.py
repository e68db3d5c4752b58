"""The closing write of a node fails: on its one image, or on two of three, it leaves dirty and its watchdog stays armed, which a line says; where it
is done, of three images on two at least, it leaves clean and disarms. An image whose server took longer than a second counts as one that failed. Where
that write lands after all, the node was not started again before it, and of two nodes that do not hear one another one owns."""
import pathlib

from live import Cluster, free_ports, same, try_all, wait_for
from nbd import BlockServer, WRITE

TRIES = 5
ARMED = "left armed, since the closing write was not done: it resets the machine"
SLOTS = 512 * 65  # mailboxes stand behind these bytes


class Servers(Cluster):
    """A cluster of one node whose images are servers of their own, each of which can be told to fail writes of slots, or to be late with them."""

    def __init__(self, name, count, ids=(1,)):
        self.count, self.failing, self.late = count, set(), set()
        self.COMMAND = "node" if count == 1 else "node3"
        super().__init__(name, ids=ids)

    def use_images(self):
        self.servers = [BlockServer(pathlib.Path(self.folder, "server.%d" % place)) for place in range(self.count)]
        for place, server in enumerate(self.servers):
            server.fault = self.fault_of(place, server)
        self.images = [server.word() for server in self.servers]

    def fault_of(self, place, server):
        def fault(number):
            if server.command != WRITE or server.place >= SLOTS:
                return None
            return "error" if place in self.failing else "late" if place in self.late else None
        return fault


class Pair(Servers):
    """Two nodes on one image, which do not hear one another, and each of which is quorate alone."""

    def __init__(self, name):
        super().__init__(name, 1, ids=(1, 2))
        self.server, self.place_of_write, self.before = self.servers[0], None, None
        self.port_of = {1: self.port, 2: free_ports(2)}
        conf = self.folder / "conf"
        conf.write_text(conf.read_text().replace("quorum {\n", "quorum {\ntwo_node: 1\nwait_for_all: 0\n"))

    def boots(self, ident):
        """Boots a node and waits until it starts."""
        return started(lambda: self.node(ident, port=self.port_of[ident]))

    def delay_slots(self):
        """From now on the answer to a write of a slot is late, and what stood there before is kept."""
        def fault(_):
            if self.server.command != WRITE or self.server.place >= SLOTS:
                return None
            self.place_of_write = slice(self.server.place, self.server.place + 512)
            self.before = bytes(self.server.data[self.place_of_write])
            return "late"
        self.server.fault = fault

    def take_back(self):
        """Takes the write of the slot back, since it has not landed yet; what it wrote."""
        self.server.fault = lambda _: None
        written = bytes(self.server.data[self.place_of_write])
        self.server.data[self.place_of_write] = self.before
        return written


def is_unopened(node):
    """Whether a node that was started ended with its opening; else it starts, or ended otherwise."""
    wait_for("node %d starts or ends" % node.ident, lambda: node.ticks("start: ok") or not node.runs())
    return node.answer.read_text() == "fault EnvFault\n"


def started(opens):
    """A node that started; where the servers of a busy host were too late for its opening, it is opened again."""
    for _ in range(TRIES):
        node = opens()
        if not is_unopened(node):
            break
    node.waits_for("start: ok")
    return node


def ends(name, count, failing, late=()):
    """How a node on so many images ends that leaves, at an exit, while the writes of slots on these fail, and on those take too long."""
    cluster = Servers(name, count)
    node = started(lambda: cluster.node(1))
    cluster.late, cluster.failing = set(late), set(failing)
    cluster.message(1, "exit")
    end = node.end()
    others = ["%s:" % server.word() for place, server in enumerate(cluster.servers) if place not in {*failing, *late}]
    is_disturbed = any(said.startswith(other) for said in node.said() for other in others)
    return end, cluster.watchdog(1), any(said.endswith(ARMED) for said in node.said()), is_disturbed


def closes(count, failing, line, is_disarmed, late=()):
    """A node ends so; a run in which a busy host had another image fail too, as a line of the node says, shows nothing and is made again."""
    what = "%d images, of which %s fail and %s are late" % (count, failing, late)
    for number in range(TRIES):
        end, fed, is_armed, is_disturbed = ends("%d-%s-%d" % (count, "".join(map(str, (*failing, *late))) or "none", number), count, failing, late)
        if not is_disturbed:
            break
    same(what, end, (0, line))
    same("disarmed: " + what, fed.endswith("V"), is_disarmed)
    same("fed: " + what, "1" in fed, True)
    same("said: " + what, is_armed, not is_disarmed)


def one_image():
    closes(1, (), "left clean\n", True)
    closes(1, (0,), "left dirty\n", False)


def three_images():
    closes(3, (), "left clean\n", True)


def one_of_three_fails():
    for place in range(3):
        closes(3, (place,), "left clean\n", True)


def two_of_three_fail():
    closes(3, (0, 2), "left dirty\n", False)


def one_of_three_fails_and_one_is_late():
    closes(3, (2,), "left dirty\n", False, late=(0,))


def closing_write_that_lands_late():
    """Only a node that disarmed may be started again on its machine before that write lands; the other one's machine is reset first, and has no write under way when it boots."""
    cluster = Pair("lands-late")
    first = cluster.boots(1)
    cluster.delay_slots()
    cluster.message(1, "exit")
    same("it leaves", first.end(), (0, "left dirty\n"))
    written = cluster.take_back()
    is_armed = not cluster.watchdog(1).endswith("V")
    if not is_armed:
        first = cluster.boots(1)
    cluster.server.data[cluster.place_of_write] = written
    if is_armed:
        first = cluster.boots(1)
    cluster.boots(2)
    fed = cluster.watchdog(1)  # on a busy host a node that is fed no more may still run here, where its watchdog is a file
    same("the end of node 1", first.end(), (13, "fault SelfReset reset\n"))
    same("node 1 is fed beside node 2, which holds", cluster.watchdog(1), fed)


try_all(closing_write_that_lands_late, one_image, three_images, one_of_three_fails, two_of_three_fail, one_of_three_fails_and_one_is_late)
