"""An image that is unlinked or replaced while a node runs fails its calls, and the node is fed no more; a copy that may only be read is read;
a full standard error does not hold a node up, and the next line says what was passed over."""
import os
import shutil
import time

from live import Cluster, done_of, event_of, same, try_all, wait_for

LOOP = 1.0  # seconds


def taken_away(way, why):
    cluster = Cluster(way.__name__, ids=(1,))
    node = cluster.node(1)
    node.waits_for("start: ok")
    way(cluster.image)
    time.sleep(3 * LOOP)
    fed = len(cluster.watchdog(1))
    time.sleep(3 * LOOP)
    same("feeds", len(cluster.watchdog(1)), fed)
    same("it runs", node.runs(), True)
    same("it said, once", node.said()[2:], ["%s: %s" % (cluster.image, why)])


def unlinked(image):
    image.unlink()


def replaced(image):
    copy = image.with_name("copy")
    shutil.copy(image, copy)
    copy.rename(image)


def an_image_that_is_unlinked():
    taken_away(unlinked, "No such file or directory (os error 2)")


def an_image_that_is_replaced():
    taken_away(replaced, "another file was put in its place")


def put_back():
    """An image that is moved and moved back is the one of before: the node is fed again."""
    cluster = Cluster("back", ids=(1,))
    node = cluster.node(1)
    node.waits_for("start: ok")
    away = cluster.image.with_name("away")
    cluster.image.rename(away)
    time.sleep(2 * LOOP)
    away.rename(cluster.image)
    fed = len(cluster.watchdog(1))
    wait_for("node 1 is fed again", lambda: len(cluster.watchdog(1)) > fed + 1)
    cluster.message(1, "exit")
    same("answer", node.end(), (0, "left clean\n"))


def full_errors():
    """Standard error is a pipe that nobody reads, and full: the node is fed, leaves, and says how many lines it passed over."""
    cluster = Cluster("full", ids=(1,))
    reader, writer = os.pipe()
    os.set_blocking(writer, False)
    filled = 0
    try:
        while True:
            filled += os.write(writer, b".")
    except BlockingIOError:
        pass
    os.set_blocking(writer, True)
    node = cluster.node(1, errors=writer)
    wait_for("node 1 is fed", lambda: len(cluster.watchdog(1) or "") > 2)
    wait_for("it holds", lambda: cluster.resource(1) == "held")
    same("what was in the pipe", os.read(reader, 1 << 20), b"." * filled)
    cluster.message(1, "exit")
    same("answer", node.end(), (0, "left clean\n"))
    said = os.read(reader, 65536).decode().splitlines()
    events = [event_of(line) for line in said]
    same("it said first", events[0]["event"], "lines-dropped")
    same("and then", [done_of(event) for event in events if done_of(event)], ["stop: ok", "disarm: ok"])


try_all(an_image_that_is_unlinked, an_image_that_is_replaced, put_back, full_errors)
