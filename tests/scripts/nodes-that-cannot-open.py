"""Openings of a node that fail: a port in use, a folder, no rights, no image. What comes after the thing that failed is not touched; a second
start of a node that runs leaves that one in peace. And an image that is none, or is not that of the settings, ends the boot."""
import os
import socket

from live import Cluster, as_nobody, same, try_all, wait_for

Cluster.BEFORE = ()  # the opening of nodes that no word of a machine was said of
DIRECTORY = "Is a directory (os error 21)"


def is_refused(node, *why):
    """The opening fails, and standard error says why; the answer is one line."""
    same("answer", node.end(), (8, "fault EnvFault\n"))
    same("standard error", node.said(), [*why, node.opened() + "failed"])


def port_in_use():
    cluster = Cluster("port", ids=(1,))
    with socket.socket(socket.AF_INET, socket.SOCK_DGRAM) as holder:
        holder.bind(("127.0.0.1", cluster.port))
        is_refused(cluster.node(1), "port: Address already in use (os error 98)")
    same("nothing after it is touched", sorted(os.listdir(cluster.folder)), ["answer.1", "conf", "disk", "log.1"])


def second_start():
    cluster = Cluster("twice", ids=(1,))
    first = cluster.node(1)
    first.waits_for("start: ok")
    fed = len(cluster.watchdog(1))
    is_refused(cluster.node(1), "port: Address already in use (os error 98)")
    same("the resource of the first", cluster.resource(1), "held")
    wait_for("the first is fed", lambda: len(cluster.watchdog(1)) > fed + 1)
    same("the first said", first.said()[1:], ["start: ok"])
    same("its slot", cluster.listed(1), "incarnation 1 dirty mail empty")


def folders():
    cluster = Cluster("folders", ids=(1,))
    folder = cluster.folder / "folder"
    folder.mkdir()
    is_refused(cluster.node(1, image=folder), "%s: %s" % (folder, DIRECTORY))
    same("its resource", cluster.resource(1), None)
    is_refused(cluster.node(1, resource=folder), "%s: %s" % (folder, DIRECTORY))
    same("its watchdog", cluster.watchdog(1), None)
    is_refused(cluster.node(1, watchdog=folder), "%s: %s" % (folder, DIRECTORY))
    same("its slot", cluster.listed(1), "incarnation 0 clean mail empty")


def no_rights():
    cluster = Cluster("rights", ids=(1,))
    run_as = as_nobody()
    why = "%s: Permission denied (os error 13)"
    os.chmod(cluster.image, 0o444)
    is_refused(cluster.node(1, run_as=run_as), why % cluster.image)
    os.chmod(cluster.image, 0o666)
    is_refused(cluster.node(1, resource="/etc/hostname", run_as=run_as), why % "/etc/hostname")


def no_image():
    """An image that is none ends a boot, whose watchdog is armed then; the file is made where there is none."""
    cluster = Cluster("none", ids=(1,))
    absent = cluster.folder / "absent"
    node = cluster.node(1, image=absent)
    same("answer", node.end(), (14, "fault BootHalted 2\n"))
    same("standard error", node.said(), [node.opened() + "ok", "halt 12: ok"])
    same("the file", absent.read_bytes(), b"")
    same("the watchdog", cluster.watchdog(1).strip("1"), "")


def other_headers():
    """A header of another number of nodes, or with times that are not safe, ends a boot; the number is looked at first."""
    for nodes, msgwait, cause in (2, 2100, 2), (2, 1, 2), (1, 1, 3):
        cluster = Cluster("header-%d-%d" % (nodes, msgwait), ids=(1,))
        with open(cluster.image, "r+b") as image:
            image.seek(10)
            image.write(nodes.to_bytes(2, "big"))
            image.seek(24)
            image.write(msgwait.to_bytes(8, "big"))
        same("answer", cluster.node(1).end(), (14, "fault BootHalted %d\n" % cause))


try_all(port_in_use, second_start, folders, no_image, other_headers)
try_all(no_rights)
