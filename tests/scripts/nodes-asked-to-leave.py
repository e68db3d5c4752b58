"""Nodes that their host asks to leave, by the file of --leave-file: they leave clean, with one image and with three, also where the file was there before they were up
or cannot be removed; while their resource does not stop they read their mailbox, and die of a reset. No datagram asks so. A record of such a run is taken by `audit`."""
import re
import socket
import subprocess
import time

from live import QUORUMD, Agent, Cluster, Node, TripleCluster, same, try_all

OK, WAIT = b"ok\n", b"no wait\n"


def asked_by(cluster, ident=1, **given):
    """A node that looks for the file `leave` in the folder of the cluster."""
    return Node(cluster, ident, before=("--open", "--leave-file", str(cluster.folder / "leave")), **given)


def leaves_clean(name, kind):
    cluster = kind(name, ids=(1,))
    node = asked_by(cluster)
    node.waits_for("start: ok")
    (cluster.folder / "leave").touch()
    same("answer", node.end(), (0, "left clean\n"))
    same("did", node.said()[1:], ["start: ok", "stop: ok", "disarm: ok"])
    same("the file is taken", (cluster.folder / "leave").exists(), False)
    for image in cluster.images:
        same("mailbox", re.search(r" mail (\w+)", cluster.listed(1, image=image))[1], "empty")


def one_image():
    leaves_clean("one", Cluster)


def three_images():
    leaves_clean("three", TripleCluster)


def before_it_is_up():
    cluster = Cluster("before", ids=(1,))
    (cluster.folder / "leave").touch()
    same("answer", asked_by(cluster).end(), (0, "left clean\n"))


def not_removed():
    cluster = Cluster("folder", ids=(1,))
    (cluster.folder / "leave").mkdir()
    same("answer", asked_by(cluster).end(), (0, "left clean\n"))
    same("it stands", (cluster.folder / "leave").is_dir(), True)


def slow_stop():
    """The stop is asked for once a loop until it is done."""
    cluster = Cluster("slow", ids=(1,))
    agent = Agent(cluster.folder / "agent", lambda line, number: WAIT if line == "stop\n" and 2 < number < 6 else OK)
    node = asked_by(cluster, resource=agent.word())
    node.waits_for("start: ok")
    (cluster.folder / "leave").touch()
    same("answer", node.end(), (0, "left clean\n"))
    same("asked", agent.lines, ["stop\n", "start\n"] + 4 * ["stop\n"])
    told = [(event["event"], event.get("ok"), event.get("count"), event["level"]) for event in node.events("stop-asked", "stop")]
    same("told", told, [("stop-asked", None, None, "5"), ("stop", "no", None, "4"), ("stop", "yes", "3", "5")])


def reset_while_it_stops():
    cluster = Cluster("reset", ids=(1,))
    agent = Agent(cluster.folder / "agent", lambda line, number: WAIT if line == "stop\n" and number > 2 else OK)
    node = asked_by(cluster, resource=agent.word())
    node.waits_for("start: ok")
    (cluster.folder / "leave").touch()
    node.waits_for("stop: failed")
    cluster.message(1, "reset")
    same("answer", node.end(), (13, "fault SelfReset reset\n"))


def no_datagram():
    cluster = Cluster("datagram", ids=(1, 2))
    node = asked_by(cluster)
    with socket.socket(socket.AF_INET, socket.SOCK_DGRAM) as other:
        other.bind(("127.0.0.1", cluster.port + 1))
        for _ in range(80):
            other.sendto(b"QN\x0c\x01", ("127.0.0.1", cluster.port))
            time.sleep(0.1)
    same("it goes on", node.runs(), True)
    (cluster.folder / "leave").touch()
    same("answer", node.end(), (0, "left clean\n"))


def recorded():
    cluster = Cluster("recorded", ids=(1,))
    (cluster.folder / "leave").touch()
    words = ["--id", "1", "--turns", "200"]
    places = ["--image", str(cluster.image), "--watchdog", "dog", "--resource", "res", "--port", str(cluster.port)]
    with open(cluster.folder / "conf") as settings:
        done = subprocess.run([QUORUMD, "--leave-file", str(cluster.folder / "leave"), "node-logged", *words, *places], stdin=settings, capture_output=True, text=True, check=False)
    *log, last = done.stdout.splitlines()
    same("answer", (done.returncode, last), (0, "left clean"))
    same("request", log.count("receive 514e0c01"), 1)
    turns = sum(line.startswith("now ") for line in log)
    head = (cluster.folder / "conf").read_text() + "----\n"
    for text, wanted in (log, "run whole turns %d\n" % turns), ([line.replace("514e0c01", "514e0c02") for line in log], None):
        audited = subprocess.run([QUORUMD, "audit", *words], input=head + "".join(line + "\n" for line in text), stdout=subprocess.PIPE, text=True, check=False)
        same("audit", (audited.returncode, audited.stdout) if wanted else audited.returncode, (0, wanted) if wanted else 18)


try_all(one_image, three_images, before_it_is_up, not_removed, slow_stop, reset_while_it_stops, no_datagram, recorded)
