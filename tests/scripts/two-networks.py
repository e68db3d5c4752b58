"""Three nodes on two networks: either network is cut, slow, out of order, or comes and goes, or one cable of it is pulled, and nobody is reset, no view changes,
and each change is said once; both are cut, which is as a cut of one network is; a node boots while it has one of its two addresses; and one node after the other goes from
a text with one network to the same with two, and back. TWO_NETWORKS_SECONDS in the environment is how long a network is so, 24 where it is absent."""
import os
import re
import shutil
import subprocess
import sys
import time

import live
from live import Wrong, in_namespace, same, try_all, wait_for
from networks import IDS, IPV4, LOOP, SAID, TwoNetworks
from rotation import TIMING, rotate

SECONDS = int(os.environ.get("TWO_NETWORKS_SECONDS", "24"))
FAMILIES = ("10.77.0.%d", "24"), ("fd77::%d", "64")  # the addresses on both networks
SPAN = 10  # seconds in which the system calls of a node at rest are counted
TRIES = 5


def others(ident):
    return [other for other in IDS if other != ident]


def all_changes(network, times=1):
    """What each node says of a network that was lost to both others and came back, so many times."""
    return {ident: sorted((name, network, other) for name in SAID for other in others(ident) for _ in range(times)) for ident in IDS}


def either_is_cut(name, networks, lost):
    cluster = TwoNetworks(name, networks)
    cluster.start_all()
    views, relay = cluster.views(), cluster.relays[lost]
    same("at rest", [cluster.changes(ident) for ident in IDS], [[], [], []])
    relay.cut = set(relay.ports)
    for ident in IDS:
        wait_for("node %d says that network %d is down" % (ident, lost), lambda ident=ident: set(cluster.down(ident).values()) == {lost})
    time.sleep(SECONDS)
    cluster.goes_on("network %d is cut" % lost, views)
    relay.cut = set()
    for ident in IDS:
        wait_for("node %d says that network %d is back" % (ident, lost), lambda ident=ident: set(cluster.down(ident).values()) == {None})
    time.sleep(4 * LOOP)
    cluster.goes_on("network %d is back" % lost, views)
    same("changes of network %d" % lost, {ident: cluster.changes(ident) for ident in IDS}, all_changes(lost))


def disturbed(name, network, least, greatest):
    """A network that is slow, or on which packets overtake one another: nothing is said of it, and nothing counts as refused."""
    cluster = TwoNetworks(name)
    cluster.start_all()
    views, relay = cluster.views(), cluster.relays[network]
    relay.least, relay.greatest = least, greatest
    time.sleep(SECONDS)
    cluster.goes_on(name, views)
    same("changes: " + name, [cluster.changes(ident) for ident in IDS], [[], [], []])


def comes_and_goes(name, network, times):
    cluster = TwoNetworks(name)
    cluster.start_all()
    views, relay = cluster.views(), cluster.relays[network]
    for _ in range(times):
        relay.cut = set(relay.ports)
        time.sleep(6 * LOOP)
        relay.cut = set()
        time.sleep(3 * LOOP)
    cluster.goes_on("network %d comes and goes" % network, views)
    same("changes of network %d" % network, {ident: cluster.changes(ident) for ident in IDS}, all_changes(network, times))


def network_0_is_cut():
    either_is_cut("c0", IPV4, 0)


def network_1_is_cut():
    either_is_cut("c1", IPV4, 1)


def network_0_of_two_families_is_cut():
    either_is_cut("f0", FAMILIES, 0)


def network_0_is_slow():
    disturbed("s0", 0, 0.8, 0.8)


def network_1_is_slow():
    disturbed("s1", 1, 0.8, 0.8)


def network_0_is_out_of_order():
    disturbed("o0", 0, 0.0, 0.5)


def network_1_is_out_of_order():
    disturbed("o1", 1, 0.0, 0.5)


def network_0_comes_and_goes():
    comes_and_goes("g0", 0, max(2, int(SECONDS / (9 * LOOP))))


def network_1_comes_and_goes():
    comes_and_goes("g1", 1, max(2, int(SECONDS / (9 * LOOP))))


def verdict(cluster, idents):
    """What `quorumctl status` says over the status files of these nodes: its status and its first line."""
    files = [str(cluster.status_of(ident)) for ident in idents]
    done = subprocess.run([os.environ["QUORUMCTL"], "status", *files], stdout=subprocess.PIPE, check=False, text=True)
    return done.returncode, done.stdout.splitlines()[0]


def one_cable_is_pulled():
    """That of node 3 on network 1: the two others do not reach it there, and it reaches neither of them."""
    cluster = TwoNetworks("p")
    cluster.start_all()
    views, relay = cluster.views(), cluster.relays[1]
    same("whole", verdict(cluster, IDS), (0, "quorumd healthy: 1 holds (no group)"))
    relay.cut = {relay.ports[2]}
    down = {1: {2: None, 3: 1}, 2: {1: None, 3: 1}, 3: {1: 1, 2: 1}}
    for ident in IDS:
        wait_for("node %d says what is down" % ident, lambda ident=ident: cluster.down(ident) == down[ident])
    for idents, said in ((IDS, "to 3 is down"), ((1,), "to 3 is down"), ((3,), "is down")):
        wait_for("the verdict of %r" % (idents,), lambda idents=idents, said=said: verdict(cluster, idents) == (1, "quorumd degraded: 1 holds; network 1 " + said))
    relay.cut = set()
    for ident in IDS:
        wait_for("node %d says that network 1 is back" % ident, lambda ident=ident: set(cluster.down(ident).values()) == {None})
    time.sleep(4 * LOOP)
    cluster.goes_on("the cable is back", views)
    lost = {ident: sorted((name, 1, other) for name in SAID for other in others(ident) if 3 in (ident, other)) for ident in IDS}
    same("changes", {ident: cluster.changes(ident) for ident in IDS}, lost)


def both_are_cut():
    """A node that hears nobody any more resets itself, and the others reset it and go on."""
    cluster = TwoNetworks("b")
    cluster.start_all()
    for relay in cluster.relays:
        relay.cut = {relay.ports[2]}
    same("node 3", cluster.nodes[3].end(), (13, "fault SelfReset reset\n"))
    same("they did", cluster.did(), [["start: ok"], []])
    same("changes", [[change for change in cluster.changes(ident) if change[2] != 3] for ident in (1, 2)], [[], []])


def boots_with_one_network():
    """Node 2 has its address on network 1 alone, is heard, and takes the other one as soon as that is there."""
    cluster = TwoNetworks("a", absent={(2, 0)})
    for ident in IDS:
        cluster.start(ident)
    cluster.nodes[1].waits_for("start: ok")
    wait_for("all are in one view", lambda: all(cluster.members(ident) == list(IDS) for ident in IDS))
    same("node 2 says", cluster.nodes[2].said()[:1], ["port: 10.77.0.2:%d: not there, and tried again each loop" % (cluster.port + 1)])
    for ident in 1, 3:
        wait_for("network 0 is down to node 2", lambda ident=ident: cluster.down(ident)[2] == 0)
    cluster.give_address(2, 0)
    for ident in IDS:
        wait_for("network 0 is back", lambda ident=ident: set(cluster.down(ident).values()) == {None})
    same("they did", cluster.did(), [["start: ok"], [], []])


def calls_of(node):
    """How often a node makes each system call in SPAN seconds, and how often in vain."""
    report = node.cluster.folder / ("calls.%d" % node.ident)
    subprocess.run(["timeout", "-s", "INT", str(SPAN), "strace", "-f", "-c", "-o", str(report), "-p", str(node.process.pid)], capture_output=True, check=False)
    rows = re.findall(r"(?m)^ *[\d.]+ +[\d.]+ +\d+ +(\d+) +(\d*) +(\w+)$", report.read_text())
    return {name: (int(count), int(failed or 0)) for count, failed, name in rows if name != "total"}


def at_rest():
    """A node on one network waits for a packet at most 25 times a second. On two it makes at most ten calls of the network a second more, besides its
    sends and two receives of each packet. Other work of the machine breaks up its waits: so it is looked at up to five times."""
    if not shutil.which("strace"):
        print("skipped: no strace: the system calls of a node at rest")
        return
    cluster = TwoNetworks("q")
    cluster.start_all()
    calls = {}
    for _ in range(TRIES):
        calls = calls_of(cluster.nodes[2])
        if more_of(calls) <= (25 + 10) * SPAN:
            return
    if os.getloadavg()[0] > os.cpu_count():
        print("skipped: a load of %.0f: the system calls of a node at rest" % os.getloadavg()[0])
        return
    raise Wrong("at rest: %r in %d seconds" % (calls, SPAN))


def more_of(calls):
    """The calls of the network besides sends and two receives of each packet."""
    count, failed = calls["recvfrom"]
    others = sum(calls.get(name, (0, 0))[0] for name in ("epoll_ctl", "setsockopt", "socket"))
    return calls["epoll_wait"][0] + max(0, count - 2 * (count - failed)) + others


class RolledNetworks(TwoNetworks):
    COMMAND = "node-logged"
    TIMES = TIMING


def from_one_to_two_and_back():
    """Each node leaves and comes back with the text of two networks, and later with that of one again."""
    cluster = RolledNetworks("r")
    rotate(cluster, cluster.start, steps=(("one",), ("conf",), ("one",)))


if not in_namespace("ip link set lo up && ip link add name one type veth && unshare -n true"):
    print("skipped: no network namespaces: nodes on two networks")
    sys.exit(0)
SCENES = (network_0_is_cut, network_1_is_cut, network_0_of_two_families_is_cut, network_0_is_slow, network_1_is_slow, network_0_is_out_of_order,
          network_1_is_out_of_order, network_0_comes_and_goes, network_1_comes_and_goes, one_cable_is_pulled, both_are_cut, boots_with_one_network, at_rest, from_one_to_two_and_back)
live.ALL += SECONDS - 24
try_all(*[scene for scene in SCENES if len(sys.argv) < 2 or scene.__name__ in sys.argv])
