"""Three and five nodes whose packets are dropped: the cluster's majority has a holder within the bound of docs/dev/VIEWS.md, no node that it sees
is reset, and no two hold. The holder is cut off, and another node; no packet comes for two seconds and for five; one way is cut; one cable is cut, and
links one way, also before the nodes boot; the network heals. A holder that leaves clean is followed within two loops, and an announced view of the greatest number stops no take-over.
The packets are dropped by the firewall of a network namespace, where both are to be had, else by a relay between the nodes."""
import struct

from live import milliseconds, same, try_all, wait_for
from cuts import LOOP, CutCluster, network

JOINED = network()
LAST = 2**64 - 1


def test(name, count, number, scene):
    """A scene with so many nodes; of another number the nodes stand to one another in another way."""
    def tried():
        cluster = CutCluster(tried.__name__, count, JOINED).start(number)
        scene(cluster)
        cluster.never_two_hold()
    tried.__name__ = "%s-of-%d-%d" % (name, count, number)
    return tried


def holder_cut(cluster):
    """The holder is reset, and nobody else: another one takes over. It stays so once the network has healed."""
    cut = cluster.cut(cluster.of(1))
    same("holder", cluster.holder_within(cut), 2)
    cluster.is_reset(1)
    cluster.heal()
    back = cluster.node(1, port=cluster.ports[0])
    wait_for("node 1 is up again", lambda: cluster.listed(1) == "incarnation 2 dirty mail empty")
    milliseconds_pass(4 * LOOP)
    same("node 1 said", back.said()[1:], [])
    same("node 2 said", cluster.nodes[1].said()[1:], ["start: ok"])
    cluster.only_ended(1)


def other_cut(cluster):
    """Another node than the holder is reset, and the holder goes on."""
    cluster.cut(cluster.of(cluster.count))
    cluster.is_reset(cluster.count)
    cluster.heal()
    milliseconds_pass(4 * LOOP)
    cluster.only_ended(cluster.count)
    same("node 1 said", cluster.nodes[0].said()[1:], ["start: ok"])


def dark_for_two_seconds(cluster):
    """Two loops without any packet, twice: nothing happens."""
    for _ in range(2):
        cluster.dark_for(2000)
        cluster.stay_quiet(loops=5)


def dark_for_five_seconds(cluster):
    """Five loops: nobody has a quorum, so the holder stops. Nobody is reset, and there is a holder again, whom the first view with a quorum names."""
    healed = cluster.dark_for(5000)
    wait_for("the holder stops", lambda: cluster.nodes[0].ticks("stop: ok"))
    cluster.holder_within(healed)
    milliseconds_pass(4 * LOOP)
    cluster.only_ended()


def not_heard(cluster):
    """A node whose packets are lost, but which hears the others, is reset, and the holder goes on."""
    cluster.cut(cluster.of(cluster.count, into=False))
    cluster.is_reset(cluster.count)
    cluster.heal()
    milliseconds_pass(4 * LOOP)
    cluster.only_ended(cluster.count)
    same("node 1 said", cluster.nodes[0].said()[1:], ["start: ok"])


def deaf(cluster):
    """A node that hears nobody and is heard is reset, and the holder goes on."""
    cluster.cut(cluster.of(cluster.count, out=False))
    cluster.is_reset(cluster.count)
    cluster.heal()
    milliseconds_pass(4 * LOOP)
    cluster.only_ended(cluster.count)
    same("node 1 said", cluster.nodes[0].said()[1:], ["start: ok"])


def holder_not_heard(cluster):
    cut = cluster.cut(cluster.of(1, into=False))
    same("holder", cluster.holder_within(cut), 2)
    cluster.is_reset(1)
    cluster.only_ended(1)


def holder_deaf(cluster):
    """It sees nobody and stops. The others hear it, and it does not hear them: it is reset, and another one takes over."""
    cut = cluster.cut(cluster.of(1, out=False))
    cluster.nodes[0].waits_for("stop: ok")
    same("holder", cluster.holder_within(cut), 2)
    cluster.is_reset(1)
    cluster.only_ended(1)


def one_cable(cluster):
    """The cable between the holder and another node is cut: that one is reset, once, and boots under the cut. The holder goes on."""
    cluster.cut({(0, 1), (1, 0)})
    cluster.is_reset(2)
    back = cluster.node(2, port=cluster.ports[1])
    wait_for("node 2 is up again", lambda: cluster.listed(2) == "incarnation 2 dirty mail empty")
    milliseconds_pass(8 * LOOP)
    same("node 2 said", back.said()[1:], [])
    same("node 2 runs", back.runs(), True)
    cluster.only_ended(2)
    same("node 1 said", cluster.nodes[0].said()[1:], ["start: ok"])


def one_way(cluster):
    """Node 2 does not hear the holder, and node 3 does not hear node 2: node 2 is reset, and the holder goes on."""
    cluster.cut({(0, 1), (1, 2)})
    cluster.is_reset(2)
    milliseconds_pass(4 * LOOP)
    cluster.only_ended(2)
    same("node 1 said", cluster.nodes[0].said()[1:], ["start: ok"])


def exit_of_the_holder(cluster):
    """The next one starts within two loops of its Disarm; nobody is reset."""
    cluster.message(1, "exit")
    same("node 1", cluster.nodes[0].end(), (0, "left clean\n"))
    left = cluster.nodes[0].ticks("disarm: ok")[0]
    same("holder", cluster.holder_within(left - 1, 2 * LOOP + 1), 2)
    same("no reset is written", cluster.listed(1), "incarnation 1 clean mail exit")
    milliseconds_pass(4 * LOOP)
    cluster.only_ended(1)


def greatest_number(cluster):
    """The last node is killed, and before it is back it is said to announce a view of the greatest number to each other node. Nothing comes of
    that: it is back within three loops. Then the holder is killed."""
    last = cluster.count - 1
    packet = b"QN\4" + bytes([last]) + struct.pack(">QI", LAST, 2**cluster.count - 1)
    cluster.kill(last + 1)
    cluster.nodes[last].end()
    for rank in range(last):
        cluster.joined.say(cluster.ports, last, rank, packet)
    cluster.nodes[last] = cluster.node(last + 1, port=cluster.ports[last])
    cluster.stay_quiet(loops=5)
    same("holder", cluster.holder_within(cluster.kill(1)), 2)
    cluster.only_ended(1)


def milliseconds_pass(count):
    end = milliseconds() + count
    wait_for("so many milliseconds pass", lambda: milliseconds() >= end)


def booted_under_a_cut():
    """Of three nodes that boot while node 1 hears nobody, another one holds within the bound, and nobody but node 1 is reset."""
    cluster = CutCluster("booted-under-a-cut", 3, JOINED)
    began = cluster.cut(cluster.of(1, out=False))
    cluster.boot(number=5)
    same("holder", cluster.holder_within(began), 2)
    milliseconds_pass(4 * LOOP)
    cluster.is_reset(1)
    cluster.only_ended(1)
    cluster.never_two_hold()


SCENES = (holder_cut, other_cut, dark_for_two_seconds, dark_for_five_seconds, not_heard, deaf, holder_not_heard, holder_deaf, one_cable, one_way,
          exit_of_the_holder, greatest_number)
tests = [test(scene.__name__, count, number, scene) for number, scene in enumerate(SCENES) for count in (3, 5)]
tests += [test("holder_cut", 3, number, holder_cut) for number in (12, 14, 17)]
try_all(*tests, booted_under_a_cut)
