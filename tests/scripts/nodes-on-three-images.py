"""Nodes on three images, of which one is lost, before the start or while they run: they start, are fed, take over and leave as ever. With two
lost a boot ends, and a node that runs is fed no more."""
import json
import os
import random
import subprocess
import time

from live import Cluster, TripleCluster, Wrong, as_nobody, milliseconds, same, try_all, wait_for

Cluster.BEFORE = ()  # the opening of nodes that no word of a machine was said of
LOOP = 1.0  # seconds, of live.LONG_LOOP
MSGWAIT = 2100


def removed(image):
    image.unlink()


def truncated(image):
    os.truncate(image, 700)


def overwritten(image):
    """Random bytes in each sector that is there."""
    with open(image, "r+b") as held:
        held.write(random.Random(17).randbytes(image.stat().st_size))


def in_place_of_a_folder(image):
    image.unlink()
    image.mkdir()


class ShownCluster(TripleCluster):
    """The same, whose node keeps a status file."""

    def with_a_node(self, *before):
        return self.node(1, before=(*before, "--status", str(self.folder / "status.1.json")))

    def images_of(self):
        """On how many images its node runs, as its status file says it; 3 where that says nothing."""
        return json.loads((self.folder / "status.1.json").read_text()).get("images", 3)

    def verdict(self):
        done = subprocess.run([os.environ["QUORUMCTL"], "status", self.folder / "status.1.json"], stdout=subprocess.PIPE, check=False, text=True)
        return done.returncode, done.stdout.splitlines()[0]


def news(node):
    """Of which images a node told that they are lost, or back."""
    return [(event["event"], event["image"]) for event in node.events("image-lost", "image-back")]


def tells_what_is_lost():
    """Of an image that cannot be opened, and where none is lost: what the journal, the status file and the verdict say."""
    cluster = ShownCluster("told-before", ids=(1,))
    in_place_of_a_folder(cluster.images[0])
    node = cluster.with_a_node()
    node.waits_for("start: ok")
    wait_for("it tells of image 1", lambda: news(node) == [("image-lost", "1")])
    wait_for("its status file says so", lambda: cluster.images_of() == 2)
    same("the verdict", cluster.verdict(), (1, "quorumd degraded: 1 holds; 1 runs on 2 of 3 images"))
    cluster = ShownCluster("told-none", ids=(1,))
    node = cluster.with_a_node()
    node.waits_for("start: ok")
    same("with three images", (news(node), cluster.images_of(), cluster.verdict()), ([], 3, (0, "quorumd healthy: 1 holds (no group)")))


def emptied(image):
    """A new file, of zeros."""
    image.write_bytes(bytes(1 << 20))


def tells_of(cluster, node, number):
    """The node tells that it lost this image, once, and its status file and the verdict say so."""
    node.waits_for("start: ok")
    wait_for("it tells of image %d" % number, lambda: news(node) == [("image-lost", str(number))])
    wait_for("its status file says so", lambda: cluster.images_of() == 2)
    same("the verdict", cluster.verdict(), (1, "quorumd degraded: 1 holds; 1 runs on 2 of 3 images"))


def tells_of_empty_ones():
    """A new and empty image is none, with a word of a machine and without; nor is one whose bytes are others while the node runs."""
    for name, before in ("empty", ()), ("empty-closed", ("--open",)):
        cluster = ShownCluster(name, ids=(1,))
        emptied(cluster.images[2])
        node = cluster.with_a_node(*before)
        tells_of(cluster, node, 3)
        no_image = ["%s: no image: its first sector is no header of version 2" % cluster.images[2]]
        same("it said first", node.said()[:1], no_image if before else [node.opened() + "ok"])
        time.sleep(3 * LOOP)
        same("and once", news(node), [("image-lost", "3")])
    cluster = ShownCluster("other-bytes", ids=(1,))
    node = cluster.with_a_node()
    node.waits_for("start: ok")
    overwritten(cluster.images[1])
    tells_of(cluster, node, 2)


def has_open(node, image):
    """Whether a node has this file open."""
    found = os.stat(image)
    for descriptor in os.scandir("/proc/%d/fd" % node.process.pid):
        try:
            about = descriptor.stat()
        except OSError:  # it was closed
            continue
        if (about.st_dev, about.st_ino) == (found.st_dev, found.st_ino):
            return True
    return False


def opens_later():
    """An image that is not there, or empty, is tried again each loop, and opened once it has the header of the others: from then on it counts."""
    for name, way in ("later-folder", in_place_of_a_folder), ("later-empty", emptied):
        cluster = ShownCluster(name, ids=(1,))
        late, whole = cluster.images[0], cluster.images[0].read_bytes()
        way(late)
        node = cluster.with_a_node("--open")
        tells_of(cluster, node, 1)
        time.sleep(2 * LOOP)
        if late.is_dir():
            late.rmdir()
        emptied(late)
        time.sleep(2 * LOOP)
        same("an empty one is open", has_open(node, late), False)
        late.write_bytes(whole)
        wait_for("it is opened", lambda: has_open(node, late))
        wait_for("it tells that it is back", lambda: news(node) == [("image-lost", "1"), ("image-back", "1")])
        wait_for("its status file says so", lambda: cluster.images_of() == 3)
        same("the verdict", cluster.verdict(), (0, "quorumd healthy: 1 holds (no group)"))
        is_fed(cluster)
        cluster.message(1, "exit", images=cluster.images[1:])
        same("answer", node.end(), (0, "left clean\n"))


def others(cluster, lost):
    """The images that are left."""
    return [image for image in cluster.images if image not in lost]


def is_fed(cluster):
    fed = len(cluster.watchdog(1))
    wait_for("node 1 is fed", lambda: len(cluster.watchdog(1)) > fed + 1)


def leaves(cluster, node, lost, before=()):
    """The node reads its mailbox on the images that are left, and leaves."""
    left = others(cluster, [lost])
    cluster.message(1, "exit", images=left)
    same("answer", node.end(), (0, "left clean\n"))
    said = [line for line in node.said() if before or not line.startswith("%s: " % lost)]
    same("it said", said, [*before, node.opened() + "ok", "start: ok", "stop: ok", "disarm: ok"])
    same("its slots", [cluster.listed(1, image=image) for image in left], ["incarnation 1 clean mail exit"] * 2)


def lost_before_the_start(way, number, why=None):
    cluster = TripleCluster("%s-%d-before" % (way.__name__, number), ids=(1,))
    lost = cluster.images[number]
    way(lost)
    node = cluster.node(1)
    node.waits_for("start: ok")
    is_fed(cluster)
    leaves(cluster, node, lost, before=["%s: %s" % (lost, why)] if why else [])


def lost_while_it_runs(way, number):
    cluster = TripleCluster("%s-%d" % (way.__name__, number), ids=(1,))
    node = cluster.node(1)
    node.waits_for("start: ok")
    way(cluster.images[number])
    time.sleep(2 * LOOP)
    is_fed(cluster)
    leaves(cluster, node, cluster.images[number])


def before_the_start():
    lost_before_the_start(removed, 0)
    lost_before_the_start(overwritten, 1)
    lost_before_the_start(truncated, 2)


def a_folder_before_the_start():
    lost_before_the_start(in_place_of_a_folder, 0, why="Is a directory (os error 21)")


def while_it_runs():
    lost_while_it_runs(overwritten, 0)
    lost_while_it_runs(truncated, 1)
    lost_while_it_runs(removed, 2)


def takes_over():
    """Of three nodes the holder is killed after an image was lost: the next one resets it on the two others, and waits for msgwait."""
    cluster = TripleCluster("takes-over")
    nodes = [cluster.node(ident) for ident in (1, 2, 3)]
    nodes[0].waits_for("start: ok")
    overwritten(cluster.images[0])
    left = cluster.images[1:]
    time.sleep(2 * LOOP)
    nodes[0].kill()
    last_without = [milliseconds()]

    def is_written():
        now = milliseconds()
        if all(cluster.has_written_reset(by=2, to=1, image=image) for image in left):
            return True
        same("a start before the reset is written", nodes[1].ticks("start: ok"), [])
        last_without[0] = now
        return False

    wait_for("node 2 writes a reset to node 1 on both images", is_written)
    tick = nodes[1].waits_for("start: ok")
    if tick - last_without[0] < MSGWAIT:
        raise Wrong("node 2 starts at %d, and at %d there was no reset yet" % (tick, last_without[0]))
    same("resources", [cluster.resource(ident) for ident in (1, 2, 3)], ["held", "held", "free"])
    same("node 3 said", nodes[2].said()[1:], [])
    back = cluster.node(1)
    wait_for("node 1 is up again", lambda: cluster.listed(1, image=left[0]) == "incarnation 2 dirty mail empty")
    same("node 1 said", back.said(), [back.opened() + "ok"])
    same("node 2 said", nodes[1].said()[1:], ["start: ok"])


def a_message_on_one_image():
    """A reset on any image takes the node down; so does one that stands on the image that others have lost."""
    cluster = TripleCluster("one-message", ids=(1,))
    node = cluster.node(1)
    node.waits_for("start: ok")
    cluster.message(1, "reset", images=cluster.images[2:])
    same("answer", node.end(), (13, "fault SelfReset reset\n"))
    same("it said", node.said()[1:], ["start: ok", "halt 2: ok"])


def two_lost_before_the_start():
    """Bytes that are no image end the boot by another cause than a call that fails; two that cannot be opened end the opening."""
    cluster = TripleCluster("two-before", ids=(1,))
    overwritten(cluster.images[0])
    removed(cluster.images[2])
    node = cluster.node(1)
    same("answer", node.end(), (14, "fault BootHalted 2\n"))
    same("it said", node.said()[1:], ["halt 12: ok"])
    cluster = TripleCluster("two-folders", ids=(1,))
    for image in cluster.images[:2]:
        in_place_of_a_folder(image)
    node = cluster.node(1)
    same("answer", node.end(), (8, "fault EnvFault\n"))
    same("nothing after it is touched", cluster.resource(1), None)
    cluster = TripleCluster("two-ways", ids=(1,))
    in_place_of_a_folder(cluster.images[1])
    overwritten(cluster.images[2])
    node = cluster.node(1)
    same("answer", node.end(), (14, "fault BootHalted 1\n"))
    same("it said", node.said()[2:], ["halt 11: ok"])


def headers_that_differ():
    """An image of another cluster among them: the boot ends."""
    cluster = TripleCluster("differ", ids=(1,))
    other = TripleCluster("differ-other", ids=(1,), timing="500,2101,1000,1000,500")
    cluster.images[1].write_bytes(other.images[1].read_bytes())
    same("answer", cluster.node(1).end(), (14, "fault BootHalted 2\n"))


def two_lost_while_it_runs():
    """A node that reads two images no more is fed no more, and goes on to try."""
    cluster = TripleCluster("two", ids=(1,))
    node = cluster.node(1)
    node.waits_for("start: ok")
    overwritten(cluster.images[0])
    overwritten(cluster.images[1])
    time.sleep(3 * LOOP)
    fed = len(cluster.watchdog(1))
    time.sleep(3 * LOOP)
    same("feeds", len(cluster.watchdog(1)), fed)
    same("it runs", node.runs(), True)
    same("it said", node.said()[1:], ["start: ok"])


def no_rights():
    """An image that may not be written is lost for a node that starts, and not for one that runs."""
    cluster = TripleCluster("rights", ids=(1, 2))
    run_as = as_nobody()
    if run_as:
        os.chmod(cluster.folder, 0o777)
    for image in cluster.images:
        os.chmod(image, 0o666)
    first = cluster.node(1, run_as=run_as)
    wait_for("node 1 is up", lambda: cluster.listed(1) == "incarnation 1 dirty mail empty")
    os.chmod(cluster.images[1], 0o444)
    second = cluster.node(2, run_as=run_as)
    first.waits_for("start: ok")
    wait_for("node 2 is up", lambda: cluster.listed(2) == "incarnation 1 dirty mail empty")
    same("node 1 said", first.said(), [first.opened() + "ok", "start: ok"])
    same("node 2 said", second.said(), ["%s: Permission denied (os error 13)" % cluster.images[1], second.opened() + "ok"])
    same("slots", [cluster.listed(2, image=image)[:13] for image in cluster.images], ["incarnation 1", "incarnation 0", "incarnation 1"])


def one_image_with_commas():
    """The image of `node` is one path, commas included."""
    cluster = Cluster("commas", ids=(1,))
    image = cluster.folder / "a,b,c"
    cluster.image.rename(image)
    node = cluster.node(1, image=image, turns=40)
    same("answer", node.end(), (0, "turns 40 up holds=yes quorate=yes 1/1 why=holding\n"))


try_all(tells_what_is_lost, tells_of_empty_ones, opens_later, before_the_start, a_folder_before_the_start, while_it_runs, takes_over, a_message_on_one_image, two_lost_before_the_start,
        headers_that_differ, two_lost_while_it_runs, one_image_with_commas)
try_all(no_rights)
