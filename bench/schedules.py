"""Schedules without end for the scripts of bench, as lines of events: nodes that boot, see one another and never answer. After that a second goes by
again and again, and in it each node looks at its clock, asks the others, reads its mailbox and feeds its watchdog. So about half a packet an event of
three nodes is sent and kept, and every third event is one of the disk."""
import itertools
import random

THREE = (1, 2, 3)
DEVICE = "quorum {\n    device {\n        model: net\n    }\n}\n"
LEASE = "lease 2000 12244\n"


def head(nodes, quorum="", lease=""):
    """The text before the events: the settings of these nodes, one vote each, and the times."""
    entries = "".join("    node {\n        nodeid: %d\n    }\n" % node for node in nodes)
    return "nodelist {\n" + entries + "}\n" + quorum + "----\ntiming 5000 10000 1000 2000 1000\n" + lease


def answered(node, images=()):
    """The operation of a node that is out lands, on each of the images where there are three, and is answered."""
    if images:
        for image in images:
            yield "land %d %d" % (node, image)
    else:
        yield "land %d" % node
    yield "done %d" % node


def booted(nodes, images=()):
    for node in nodes:
        yield "boot %d 0" % node
        for _ in range(4):
            yield from answered(node, images)


def events(nodes=THREE, images=(), asked=lambda node: ()):
    """The events. `asked(node)` are those that a node adds in each second."""
    yield from booted(nodes, images)
    members = ",".join(map(str, nodes))
    for node in nodes:
        yield "view %d 1 %s" % (node, members)
        yield from answered(node, images)
        yield "feed %d" % node
    while True:
        yield "pass 1000"
        for node in nodes:
            yield "tick %d" % node
            yield from answered(node, images)
            yield "feed %d" % node
            yield from asked(node)


def beside_arbiter(is_polled):
    """The events of three nodes beside an arbiter, which each polls in each second and is told its answer, or nobody polls."""
    numbers = itertools.count()

    def polls(node):
        number = next(numbers)
        return ["poll %d" % node, "hear %d" % number, "reply %d" % number]

    yield "arbiter-boot 0"
    yield from events(asked=polls) if is_polled else events()


def beside_device(is_polled):
    """As many events of the same three nodes whose device says yes: in place of a poll and its way time is looked at twice."""
    yield from events(asked=lambda node: ["tick %d" % node] * 2 + ["device %d yes" % node]) if is_polled else events()


def views(members):
    """Lines of `count`: 32 nodes, and views of so many members."""
    chosen = random.Random(7)
    for node in range(1, 33):
        yield "node %d %d" % (node * 1000, node % 5)
    for view in itertools.count():
        ranks = sorted(chosen.sample(range(1, 33), members))
        yield "view %d %s" % (view, ",".join(str(rank * 1000) for rank in ranks))
