"""Nodes that run, three of them on 127.0.0.1: one of them holds; a holder that is killed, reset or told to leave is followed by the next
one, after msgwait and not before where it did not end clean; messages, --leave and --turns; and what each says on standard error."""
import time

from live import Cluster, Wrong, milliseconds, same, try_all, wait_for

MSGWAIT = 2100  # of live.LONG_LOOP


def three_nodes(name):
    """Three nodes, of which the first one holds."""
    cluster = Cluster(name)
    nodes = [cluster.node(ident) for ident in (1, 2, 3)]
    nodes[0].waits_for("start: ok")
    same(name, [cluster.resource(ident) for ident in (1, 2, 3)], ["held", "free", "free"])
    for node in nodes:
        same(name, node.said()[0], node.opened() + "ok")
    return cluster, nodes


def is_followed(cluster, successor):
    """The second node starts at the earliest msgwait after its reset to the first was on the disk."""
    last_without = [milliseconds()]

    def is_written():
        now = milliseconds()
        if cluster.has_written_reset(by=2, to=1):
            return True
        same("a start before the reset is written", successor.ticks("start: ok"), [])
        last_without[0] = now
        return False

    wait_for("node 2 writes a reset to node 1", is_written)
    tick = successor.waits_for("start: ok")
    if tick - last_without[0] < MSGWAIT:
        raise Wrong("node 2 starts at %d, and at %d there was no reset yet" % (tick, last_without[0]))
    same("resource of node 2", cluster.resource(2), "held")


def is_not_taken_back(cluster, holder):
    """Node 1 comes back: a new incarnation, whose opening frees its resource, and which leaves the holder in peace."""
    back = cluster.node(1)
    wait_for("node 1 is up again", lambda: cluster.listed(1) == "incarnation 2 dirty mail empty")
    time.sleep(3)
    same("resources", [cluster.resource(ident) for ident in (1, 2, 3)], ["free", "held", "free"])
    same("node 1 said", back.said(), [back.opened() + "ok"])
    same("node 2 said", holder.said()[1:], ["start: ok"])


def killed_holder():
    cluster, (first, second, third) = three_nodes("killed")
    first.kill()
    is_followed(cluster, second)
    same("the resource of a node without a machine", cluster.resource(1), "held")
    same("node 3 said", third.said()[1:], [])
    is_not_taken_back(cluster, second)


def reset_holder():
    cluster, (first, second, _) = three_nodes("reset")
    cluster.message(1, "reset")
    same("node 1", first.end(), (13, "fault SelfReset reset\n"))
    same("node 1 said", first.said()[1:], ["start: ok", "halt 2: ok"])
    same("its watchdog", cluster.watchdog(1).strip("1"), "")
    is_followed(cluster, second)


def leaving_holder():
    cluster, (first, second, third) = three_nodes("leaving")
    cluster.message(1, "exit")
    same("node 1", first.end(), (0, "left clean\n"))
    same("node 1 said", first.said()[1:], ["start: ok", "stop: ok", "disarm: ok"])
    same("its watchdog", cluster.watchdog(1).lstrip("1"), "V")
    same("its resource", cluster.resource(1), "free")
    second.waits_for("start: ok")
    same("no reset is written", cluster.listed(1), "incarnation 1 clean mail exit")
    switched_off(cluster, second, third)
    stays_off(cluster)


def switched_off(cluster, second, third):
    """Node 3 is switched off, and the one that is left has no quorum; then it has to dump."""
    cluster.message(3, "off")
    same("node 3", third.end(), (13, "fault SelfReset off\n"))
    same("node 3 said", third.said()[1:], ["halt 3: ok"])
    second.waits_for("stop: ok")
    same("its resource", cluster.resource(2), "free")
    cluster.message(2, "crashdump")
    same("node 2", second.end(), (13, "fault SelfReset crashdump\n"))
    same("node 2 said", second.said()[1:], ["start: ok", "stop: ok", "halt 5: ok"])


def stays_off(cluster):
    """A clean start ends where the mailbox holds that it was switched off, and goes on where an operator cleared it."""
    node = cluster.node(3, more=("--start-mode", "1"))
    same("node 3", node.end(), (14, "fault BootHalted 7\n"))
    same("node 3 said", node.said()[1:], ["halt 17: ok"])
    cluster.message(3, "clear")
    node = cluster.node(3, more=("--start-mode", "1"))
    wait_for("node 3 is up again", lambda: cluster.listed(3) == "incarnation 2 dirty mail empty")
    same("node 3 said", node.said(), [node.opened() + "ok"])


def told_when_to_leave():
    cluster = Cluster("alone", ids=(1,))
    node = cluster.node(1, more=("--leave", "40"))
    same("node", node.end(), (0, "left clean\n"))
    same("it said", node.said(), [node.opened() + "ok", "start: ok", "stop: ok", "disarm: ok"])
    same("its watchdog", cluster.watchdog(1).lstrip("1"), "V")
    same("its resource", cluster.resource(1), "free")
    same("its slot", cluster.listed(1), "incarnation 1 clean mail empty")


def each_leaves_in_turn():
    """Two nodes of one image run and leave, one after the other."""
    cluster = Cluster("each", ids=(1, 2))
    for ident in (1, 2):
        node = cluster.node(ident, more=("--leave", "40"))
        same("node %d" % ident, node.end(), (0, "left clean\n"))
        same("watchdog of node %d" % ident, cluster.watchdog(ident).lstrip("1"), "V")
        same("resource of node %d" % ident, cluster.resource(ident), "free")
        same("slot of node %d" % ident, cluster.listed(ident), "incarnation 1 clean mail empty")


def turns_are_used_up():
    cluster = Cluster("turns", ids=(1,))
    node = cluster.node(1, turns=40)
    same("node", node.end(), (0, "turns 40 up holds=yes quorate=yes 1/1 why=holding\n"))
    same("it said", node.said(), [node.opened() + "ok", "start: ok"])
    same("its watchdog is armed", cluster.watchdog(1).strip("1"), "")
    same("its resource", cluster.resource(1), "held")
    same("its slot", cluster.listed(1), "incarnation 1 dirty mail empty")


try_all(killed_holder, reset_holder, leaving_holder, told_when_to_leave, each_leaves_in_turn, turns_are_used_up)
